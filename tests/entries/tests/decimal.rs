//! Numbers in decimal: the C function writes what Rust's own formatting gives
//! where the output has room for it, nothing where it has not, and changes no
//! other byte. LAFINDRY_SEED sets another seed.

mod counts;
mod seed;

use counts::Counts;
use lafindry_entries::{decimal, ensure, Failure, MOST_DIGITS, WATCHED};
use lafindry_reference::generate::Rng;
use lafindry_reference::MOST_BYTES;
use seed::seed;
use std::collections::BTreeSet;

/// How many lengths of output beyond what is ever needed are tried.
const MORE: usize = 4;

/// How many digits a number has.
fn digits_of(number: u64) -> usize {
    number.to_string().len()
}

/// Bytes for an output of a length and for those watched beside it. None is a
/// digit, and none is equal to its neighbours.
fn no_digits(room: usize) -> Vec<u8> {
    (0..room + 2 * WATCHED).map(|at| 0x80 + (at % 0x70) as u8).collect()
}

/// Compares calls with what is expected, and counts them.
#[derive(Default)]
struct Run(Counts);

impl Run {
    /// Writes a number into an output that holds some bytes, with those beside
    /// it. Fails unless the answer and all bytes are then as they should be.
    fn ensure_written(&mut self, number: u64, before: Vec<u8>) -> Result<(), Failure> {
        let digits = number.to_string();
        let room = before.len() - 2 * WATCHED;
        let written = if digits.len() <= room { digits.as_bytes() } else { &[] };
        let mut expected = before.clone();
        expected[WATCHED..WATCHED + written.len()].copy_from_slice(written);
        let mut after = before;
        let answer = decimal(number, &mut after[WATCHED..WATCHED + room]);
        if answer != written.len() || after != expected {
            let shown = |answer, bytes: &[u8]| format!("{answer}, {}", bytes.escape_ascii());
            return Err(Failure(format!(
                "{number} into {room} bytes, the answer and then the output with the bytes beside it: {}\n\
                 expected: {}",
                shown(answer, &after),
                shown(written.len(), &expected)
            )));
        }
        self.0.add("with just enough room", room == digits.len());
        self.0.add("with more", room > digits.len());
        self.0.add("with too little", room < digits.len());
        Ok(())
    }
}

/// All numbers that a line of the programs can have.
#[test]
fn numbers_up_to_the_greatest_length() -> Result<(), Failure> {
    let mut run = Run::default();
    for number in 0..=MOST_BYTES as u64 {
        let needed = digits_of(number);
        for room in [needed - 1, needed, needed + 1, MOST_DIGITS + MORE] {
            run.ensure_written(number, no_digits(room))?;
        }
    }
    run.0.finish("numbers from 0 to 60,000", MOST_BYTES + 1)
}

/// Each digit with zeros behind it, each power of two, one less and one more,
/// and the greatest numbers.
fn edges() -> BTreeSet<u64> {
    let with_zeros = (0..MOST_DIGITS as u32).flat_map(|zeros| {
        let power = 10u64.pow(zeros);
        (1..=9).filter_map(move |digit| power.checked_mul(digit))
    });
    let powers_of_two = (0..64).map(|exponent| 1 << exponent);
    let around = with_zeros.chain(powers_of_two).flat_map(|number| number - 1..=number + 1);
    around.chain(u64::MAX - 20..=u64::MAX).collect()
}

/// With every length of output, none at all to some more than is ever needed.
#[test]
fn numbers_at_edges() -> Result<(), Failure> {
    let mut run = Run::default();
    let edges = edges();
    for &number in &edges {
        for room in 0..=MOST_DIGITS + MORE {
            run.ensure_written(number, no_digits(room))?;
        }
    }
    run.0.finish("numbers at edges", edges.len())?;
    ensure(edges.len() == 698, format!("{} numbers", edges.len()))
}

/// A number of so many digits.
fn random_number(rng: &mut Rng, digits: u32) -> u64 {
    let least = if digits == 1 { 0 } else { 10u64.pow(digits - 1) };
    let greatest = 10u64.checked_pow(digits).map_or(u64::MAX, |power| power - 1);
    least + rng.bits() % (greatest - least + 1)
}

/// Into outputs that hold any bytes, digits among them.
#[test]
fn random_numbers() -> Result<(), Failure> {
    let mut rng = Rng::new(seed().wrapping_add(1100));
    let mut run = Run::default();
    for digits in 1..=MOST_DIGITS {
        for _ in 0..3000 {
            let number = random_number(&mut rng, digits as u32);
            ensure(digits_of(number) == digits, format!("{number} has not {digits} digits"))?;
            for room in [digits - 1, digits, rng.between(0, MOST_DIGITS + MORE)] {
                let before = (0..room + 2 * WATCHED).map(|_| rng.byte()).collect();
                run.ensure_written(number, before)?;
            }
        }
    }
    run.0.finish("random numbers of 1 to 20 digits", 20_000)
}
