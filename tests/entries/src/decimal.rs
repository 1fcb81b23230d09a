//! `lafindry_decimal`, called as `include/lafindry.h` declares it.

/// `LAFINDRY_MOST_DIGITS`.
pub const MOST_DIGITS: usize = 20;

extern "C" {
    fn lafindry_decimal(number: u64, output: *mut u8, output_length: usize) -> usize;
}

/// Writes a number in decimal at the start of an output and answers how many
/// digits it has, or writes nothing and answers 0 where they don't fit.
pub fn decimal(number: u64, output: &mut [u8]) -> usize {
    // The pointer comes with the length of the bytes it points to.
    unsafe { lafindry_decimal(number, output.as_mut_ptr(), output.len()) }
}
