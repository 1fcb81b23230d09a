//! Tallies that differ between the reference and the library fail, and say of
//! which entry, number and document.

use lafindry_entries::{ensure, Failure, Refused, Side, Sides, Tally};
use lafindry_reference::vectors::Entry;
use lafindry_reference::{SOURCE, TARGET, TREE};

/// The tally of some answers of bringing back, the reference's and the
/// library's.
fn tally_of(answers: &[(Refused, Refused)]) -> Tally {
    let mut tally = Tally::default();
    answers.iter().for_each(|&(reference, library)| tally.count(Entry::BringBack, reference, library));
    tally
}

/// Fails unless some counts failed with some lines after a title.
fn ensure_failed<T>(counted: Result<T, Failure>, title: &str, lines: &[&str]) -> Result<(), Failure> {
    let expected = format!("{title}: {}", lines.join("\n"));
    match counted {
        Ok(_) => Err(Failure(format!("it did not fail: {expected}"))),
        Err(Failure(text)) => ensure(text == expected, format!("it failed otherwise: {text}")),
    }
}

#[test]
fn equal_tallies_are_counted() -> Result<(), Failure> {
    // The answers are in another order, which tallies don't tell apart.
    let tally = tally_of(&[((0, 0), (4, TREE)), ((4, TREE), (4, TREE)), ((4, TREE), (0, 0))]);
    let histogram = tally.finish("a tally of three answers")?;
    let of = |number| histogram.of(Entry::BringBack, number);
    ensure((of(0), of(4), histogram.total()) == (1, 2, 3), "a wrong count")
}

#[test]
fn another_number_fails() -> Result<(), Failure> {
    let title = "a tally with another number, which has to fail";
    let tally = tally_of(&[((4, TREE), (4, TREE)), ((4, TREE), (11, TREE))]);
    let lines = [
        "bring_back: 4 of document 4: 2 by the reference, 1 by the library",
        "bring_back: 11 of document 4: 0 by the reference, 1 by the library",
    ];
    ensure_failed(tally.finish(title), title, &lines)
}

#[test]
fn another_document_fails() -> Result<(), Failure> {
    let title = "a tally with another document, which has to fail";
    let tally = tally_of(&[((2, SOURCE), (2, TARGET))]);
    let lines = [
        "bring_back: 2 of document 1: 1 by the reference, 0 by the library",
        "bring_back: 2 of document 2: 0 by the reference, 1 by the library",
    ];
    ensure_failed(tally.finish(title), title, &lines)
}

#[test]
fn acceptance_for_a_refusal_fails() -> Result<(), Failure> {
    let title = "a tally with an acceptance for a refusal, which has to fail";
    let tally = tally_of(&[((15, TREE), (0, 0))]);
    let lines = [
        "bring_back: accepted: 0 by the reference, 1 by the library",
        "bring_back: 15 of document 4: 1 by the reference, 0 by the library",
    ];
    ensure_failed(tally.finish(title), title, &lines)
}

#[test]
fn another_clause_fails() -> Result<(), Failure> {
    let title = "clauses of which the library shows one less, which has to fail";
    let mut shown = Sides::default();
    for (side, occurred) in [(Side::Reference, true), (Side::Library, false)] {
        shown.add(side, "a clause", true);
        shown.add(side, "another", occurred);
    }
    ensure_failed(shown.finish(title, 0), title, &["another: 1 by the reference, 0 by the library"])
}
