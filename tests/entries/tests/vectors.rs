//! The vector files agree with the C entries. Where they come from, a program
//! written independently for most, is said at `lafindry_reference::vectors`.

use lafindry_entries::{ensure, Crossings, Explained, Explanations, Extended, Extensions, Failure, Tally};
use lafindry_reference::explanation::Reason;
use lafindry_reference::vectors::{crossings, explanations, is_skipped, operations, parse_line, Entry};

/// The entries of paper 01 that are given a tree.
const FIVE_WITH_TREE: [Entry; 3] = [Entry::JudgeTree, Entry::Carry, Entry::BringBack];

/// The entries that write.
const WRITING: [Entry; 3] = [Entry::Carry, Entry::BringBack, Entry::ReadAlong];

/// Runs every line of a file under tests/data by a check.
fn run_lines(name: &str, mut check: impl FnMut(&str) -> Result<(), Failure>) -> Result<(), Failure> {
    let path = format!("{}/../data/{name}", env!("CARGO_MANIFEST_DIR"));
    let text = std::fs::read_to_string(&path).map_err(|error| Failure(format!("{path}: {error}")))?;
    for (number, line) in text.lines().enumerate().filter(|(_, line)| !is_skipped(line)) {
        check(line).map_err(|failure| Failure(format!("{name}:{}: {}", number + 1, failure.0)))?;
    }
    Ok(())
}

/// Runs every line of a file of cases; there must be at least so many, and of
/// some entries lines that they accept.
fn run_file(name: &str, least: usize, entries: &[Entry]) -> Result<(), Failure> {
    let mut tally = Tally::default();
    run_lines(name, |line| {
        let (case, expected) = parse_line(line).map_err(Failure)?;
        tally.compare_with(&case, &expected)
    })?;
    let histogram = tally.finish(name)?;
    ensure(histogram.total() >= least, format!("{name}: only {} lines", histogram.total()))?;
    let idle = entries.iter().find(|&&entry| histogram.of(entry, 0) == 0);
    ensure(idle.is_none(), format!("{name}: {idle:?} accepted nothing"))
}

#[test]
fn base_vectors_agree() -> Result<(), Failure> {
    run_file("base.txt", 3851, &Entry::FIVE)
}

#[test]
fn worked_cases_agree() -> Result<(), Failure> {
    run_file("cases-01.txt", 177, &Entry::FIVE)
}

#[test]
fn optional_choice_vectors_agree() -> Result<(), Failure> {
    run_file("n3.txt", 1178, &Entry::FIVE)
}

#[test]
fn optional_choice_cases_agree() -> Result<(), Failure> {
    run_file("cases-n3.txt", 288, &Entry::FIVE)
}

#[test]
fn list_vectors_agree() -> Result<(), Failure> {
    run_file("n6.txt", 1019, &Entry::FIVE)
}

#[test]
fn list_cases_agree() -> Result<(), Failure> {
    run_file("cases-n6.txt", 280, &Entry::FIVE)
}

#[test]
fn accent_vectors_agree() -> Result<(), Failure> {
    run_file("n5.txt", 828, &FIVE_WITH_TREE)
}

#[test]
fn accent_cases_agree() -> Result<(), Failure> {
    run_file("cases-n5.txt", 278, &FIVE_WITH_TREE)
}

#[test]
fn reading_vectors_agree() -> Result<(), Failure> {
    run_file("n4.txt", 985, &WRITING)
}

#[test]
fn counted_vectors_agree() -> Result<(), Failure> {
    let mut across = Crossings::default();
    run_lines("n14.txt", |line| {
        let (crossing, stated) = crossings::parse_line(line).map_err(Failure)?;
        across.compare_with(&crossing, &stated)
    })?;
    let histogram = across.finish("n14.txt", 0)?;
    let counts = [histogram.total_of(Entry::Carry), histogram.of(Entry::Carry, 0)];
    ensure(counts == [638, 617], format!("n14.txt: {counts:?} lines and images"))
}

#[test]
fn explanation_vectors_agree() -> Result<(), Failure> {
    let mut explained = Explanations::default();
    run_lines("n9.txt", |line| {
        let (question, stated) = explanations::parse_line(line).map_err(Failure)?;
        explained.compare_with(&question, &stated)
    })?;
    let counts = explained.finish("n9.txt")?;
    ensure(counts.values().sum::<usize>() == 1013, "n9.txt: not 1013 lines")?;
    let rare = Reason::ALL.into_iter().find(|&reason| !counts.contains_key(&Explained::Clash(reason)));
    ensure(rare.is_none(), format!("n9.txt: no clash because of {rare:?}"))
}

#[test]
fn operation_vectors_agree() -> Result<(), Failure> {
    let mut extensions = Extensions::default();
    run_lines("n8.txt", |line| {
        let (row, stated) = operations::parse_line(line).map_err(Failure)?;
        extensions.compare_row_with(&row, &stated)
    })?;
    ensure(extensions.total() == 929, "n8.txt: not 929 lines")?;
    let counts = extensions.finish("n8.txt")?;
    let mut of_operations = Extended::all().filter(|extended| !matches!(extended, Extended::Document(_)));
    let missing = of_operations.find(|extended| !counts.contains_key(extended));
    ensure(missing.is_none(), format!("n8.txt: {missing:?} did not occur"))
}
