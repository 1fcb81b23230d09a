//! The seed of the random cases.

/// The number that LAFINDRY_SEED names, else 1.
pub fn seed() -> u64 {
    let text = std::env::var("LAFINDRY_SEED").unwrap_or("1".to_string());
    text.parse().expect("LAFINDRY_SEED is a number")
}
