//! The command line of the reference:
//!
//! - `reference vectors FILE..` runs vector files and compares the answers.
//! - `reference generate SEED COUNT [small]` prints random cases with answers.
//! - `reference generate SEED COUNT optional` prints small ones with an optional
//!   choice, spread over the answers and the clauses about optional choices.
//! - `reference generate SEED COUNT lists` prints small ones with a list on the
//!   path of a choice, spread over the answers and the clauses about such lists.
//! - `reference generate SEED COUNT accents` prints small ones with a character
//!   from A0 to FF, spread over the answers and the clauses about characters.
//! - `reference generate SEED COUNT clashes` prints small questions why paths
//!   clash, spread over the reasons, the kinds of types and the other answers.
//! - `reference generate SEED COUNT operations` prints small rows of operations
//!   on a table, spread over what the last one shows, and small documents of
//!   operations, spread over the answers.
//! - `reference generate SEED COUNT edited` prints small target documents read
//!   along the paths, images edited in some way, spread over the answers and what
//!   a reading shows.
//! - `reference generate SEED COUNT counted` prints small documents that go across,
//!   counted, spread over what the counts show.
//! - `reference ENTRY FILE.. [OUTLEN]` runs one entry on documents in files.
//! - `reference counted SOURCE TARGET EMBEDDING TREE` counts what goes across, for
//!   documents in files.
//! - `reference explain SOURCE TARGET EMBEDDING` says why paths clash, for
//!   documents in files.
//! - `reference extend TABLE OPERATIONS` carries out operations on a table, for
//!   documents in files.

use lafindry_reference::clauses::characters::{self, CharacterClause};
use lafindry_reference::clauses::clashes::{self, ClashClause};
use lafindry_reference::clauses::crossings::{self, CrossingClause};
use lafindry_reference::clauses::lists::{self, ListClause};
use lafindry_reference::clauses::operations::{self as operation_clauses, OperationClause};
use lafindry_reference::clauses::reading::{self, ReadingClause};
use lafindry_reference::clauses::{self, Clause};
use lafindry_reference::counted::Counted;
use lafindry_reference::explanation::Explanation;
use lafindry_reference::extension::{Operation, Report, MOST_REPORT};
use lafindry_reference::generate::{
    random_case, random_small_accented_case, random_small_case, random_small_crossing,
    random_small_edited_case, random_small_extension, random_small_listed_case, random_small_optional_case,
    random_small_question, random_small_row, Rng,
};
use lafindry_reference::vectors::crossings::{
    self as crossing_lines, is_crossing, Crossing, Stated, COUNTED,
};
use lafindry_reference::vectors::explanations::{self, is_question, Question, EXPLAIN};
use lafindry_reference::vectors::operations::{self, is_extension, is_row, Extension, Row};
use lafindry_reference::vectors::{check_line, is_skipped, Answer, Case, Entry};
use lafindry_reference::Refusal;
use std::collections::BTreeMap;
use std::io::Write;
use std::process::ExitCode;

const USAGE: &str = "usage: reference vectors FILE..
       reference generate SEED COUNT [small|optional|lists|accents|clashes|operations|edited|counted]
       reference ENTRY FILE.. [OUTLEN]
       reference counted SOURCE TARGET EMBEDDING TREE
       reference explain SOURCE TARGET EMBEDDING
       reference extend TABLE OPERATIONS";

fn main() -> ExitCode {
    let arguments: Vec<String> = std::env::args().skip(1).collect();
    let words: Vec<&str> = arguments.iter().map(String::as_str).collect();
    let result = match words[..] {
        ["vectors", ref files @ ..] if !files.is_empty() => run_vectors(files),
        ["generate", seed, count] => generate(seed, count, random_case),
        ["generate", seed, count, "small"] => generate(seed, count, random_small_case),
        ["generate", seed, count, "optional"] => generate_spread(seed, count, OPTIONAL),
        ["generate", seed, count, "lists"] => generate_spread(seed, count, LISTS),
        ["generate", seed, count, "accents"] => generate_spread(seed, count, ACCENTS),
        ["generate", seed, count, "clashes"] => generate_spread(seed, count, CLASHES),
        ["generate", seed, count, "operations"] => generate_spread(seed, count, ON_TABLES),
        ["generate", seed, count, "edited"] => generate_spread(seed, count, EDITED),
        ["generate", seed, count, "counted"] => generate_spread(seed, count, ACROSS),
        [COUNTED, source, target, embedding, tree] => count([source, target, embedding, tree]),
        [EXPLAIN, source, target, embedding] => explain([source, target, embedding]),
        ["extend", table, operations] => extend([table, operations]),
        [entry, ref files @ ..] => run_entry(entry, files),
        [] => Err(USAGE.to_string()),
    };
    match result {
        Ok(true) => ExitCode::SUCCESS,
        Ok(false) => ExitCode::from(1),
        Err(message) => {
            eprintln!("{message}");
            ExitCode::from(2)
        }
    }
}

/// A kind of answer: two numbers by which kinds are put in order, and a text.
type Kind = (u64, u64, String);

/// Counts of answers by their kind.
type Histogram = BTreeMap<Kind, u64>;

/// Runs all lines of some files; true if all agree.
fn run_vectors(files: &[&str]) -> Result<bool, String> {
    let mut histogram = Histogram::new();
    let (mut passed, mut failed) = (0, 0);
    for file in files {
        let text = std::fs::read_to_string(file).map_err(|error| format!("{file}: {error}"))?;
        for (number, line) in text.lines().enumerate().filter(|(_, line)| !is_skipped(line)) {
            match kind_of_line(line) {
                Ok(kind) => {
                    passed += 1;
                    *histogram.entry(kind).or_default() += 1;
                }
                Err(message) => {
                    failed += 1;
                    println!("{file}:{}: {message}", number + 1);
                }
            }
        }
    }
    for ((_, _, text), count) in &histogram {
        println!("{text} {count}");
    }
    println!("{passed} passed, {failed} failed");
    Ok(failed == 0)
}

/// Runs a line of any form and gives the kind of its answer. The error says how
/// they disagree.
fn kind_of_line(line: &str) -> Result<Kind, String> {
    if is_question(line) {
        explanations::check_line(line).map(|(_, explanation)| explained_kind(&explanation))
    } else if is_crossing(line) {
        crossing_lines::check_line(line).map(|(_, counted)| counted_kind(&counted))
    } else if is_row(line) {
        operations::check_line(line).map(|(row, report)| row_kind(&row, &report))
    } else if is_extension(line) {
        operations::check_extension(line).map(|(_, answer)| extended_kind(&answer))
    } else {
        check_line(line).map(|(case, answer)| kind(&case, &answer))
    }
}

/// The kind of the answer to the last operation of a row, after all others.
fn row_kind(row: &Row, report: &Report) -> Kind {
    let (place, name) = match row.operations.last() {
        None => return (200, 0, "no operation".to_string()),
        Some(Operation::AppendType(_)) => (200, "type"),
        Some(Operation::AppendMember { .. }) => (300, "member"),
    };
    match report.answers.last() {
        Some(Err(refusal)) => (place, refusal.number, format!("{name} refused {}", refusal.number)),
        _ => (place, 1, format!("{name} ok")),
    }
}

/// The kind of an explanation, after all answers of entries.
fn explained_kind(explanation: &Explanation) -> Kind {
    match explanation {
        Explanation::Clash { clash, .. } => {
            (100, clash.reason as u64, format!("clash {}", clash.reason.name()))
        }
        Explanation::Nothing(Ok(_)) => (101, 0, "none ok".to_string()),
        Explanation::Nothing(Err(refusal)) => {
            let (number, document) = (refusal.number, refusal.document);
            (101 + number, document, format!("none refused {number} {document}"))
        }
    }
}

/// The kind of the answer to operations as a document, after those to rows.
fn extended_kind(answer: &Answer) -> Kind {
    match answer {
        Answer::Ok { .. } => (400, 0, "extended".to_string()),
        Answer::Refused(Refusal { number, document, .. }) => {
            (400 + number, *document, format!("not extended: refused {number} {document}"))
        }
    }
}

/// The kind of what is counted, after all others.
fn counted_kind(counted: &Result<Counted, Refusal>) -> Kind {
    match counted {
        Ok(_) => (500, 0, "counted".to_string()),
        Err(Refusal { number, document, .. }) => {
            (500 + number, *document, format!("not counted: refused {number} {document}"))
        }
    }
}

/// The kind of an entry's answer.
fn kind(case: &Case, answer: &Answer) -> Kind {
    match answer {
        Answer::Ok { .. } => (0, case.entry as u64, format!("ok {}", case.entry.name())),
        Answer::Refused(refusal) => {
            let (number, document) = (refusal.number, refusal.document);
            (number, document, format!("refused {number} {document}"))
        }
    }
}

/// Prints random cases with their answers.
fn generate(seed: &str, count: &str, random: impl Fn(&mut Rng) -> Case) -> Result<bool, String> {
    let mut rng = Rng::new(seed.parse().map_err(|_| USAGE)?);
    let count: u64 = count.parse().map_err(|_| USAGE)?;
    let mut out = std::io::BufWriter::new(std::io::stdout().lock());
    for _ in 0..count {
        let case = random(&mut rng);
        let answer = case.run()?;
        writeln!(out, "{case} -> {answer}").map_err(|error| error.to_string())?;
    }
    out.flush().map_err(|error| error.to_string())?;
    Ok(true)
}

/// How many random cases there are for each one that is printed where they are
/// spread.
const DRAWN_FOR_ONE: usize = 200;

/// Cases that are spread over clauses: the word that asks for them, what they
/// are, how one is drawn, and the clauses that they show.
struct Spread<C: 'static> {
    word: &'static str,
    text: &'static str,
    draw: fn(&mut Rng) -> Result<Drawn<C>, String>,
    clauses: &'static [(C, &'static str)],
}

/// A random case as a line, and the kind of its answer and the clause by which
/// it is grouped.
struct Drawn<C> {
    line: String,
    kind: Kind,
    clause: Option<C>,
}

/// A case of an entry, grouped by the last clause that it shows.
fn drawn<C: Copy>(case: Case, shown: fn(&Case, &Answer) -> Vec<C>) -> Result<Drawn<C>, String> {
    let answer = case.run()?;
    let clause = shown(&case, &answer).last().copied();
    Ok(Drawn { line: format!("{case} -> {answer}"), kind: kind(&case, &answer), clause })
}

/// A question, grouped by its reason with the kind of source type.
fn drawn_question(question: Question) -> Result<Drawn<ClashClause>, String> {
    let explanation = question.run();
    let clause = clashes::shown(&question, &explanation).first().copied();
    Ok(Drawn { line: format!("{question} -> {explanation}"), kind: explained_kind(&explanation), clause })
}

/// A row of operations, grouped by what the last one shows.
fn drawn_row(row: Row) -> Result<Drawn<OperationClause>, String> {
    let report = row.run().map_err(|refusal| refusal.to_string())?;
    let clause = operation_clauses::shown(&row, &report).last().and_then(|shown| shown.last().copied());
    Ok(Drawn { line: row.line(&report), kind: row_kind(&row, &report), clause })
}

/// Operations as a document.
fn drawn_extension(extension: Extension) -> Result<Drawn<OperationClause>, String> {
    let answer = extension.run()?;
    Ok(Drawn { line: format!("{extension} -> {answer}"), kind: extended_kind(&answer), clause: None })
}

/// Documents that go across, grouped by what the count shows. All refusals are in
/// one group, as they are those of carrying.
fn drawn_crossing(crossing: Crossing) -> Drawn<CrossingClause> {
    let counted = crossing.run();
    let clause = crossings::shown(&crossing, &counted).last().copied();
    let kind = match counted {
        Ok(_) => counted_kind(&counted),
        Err(_) => (501, 0, "not counted".to_string()),
    };
    Drawn { line: format!("{crossing} -> {}", Stated::of(&counted)), kind, clause }
}

/// Those with an optional choice.
const OPTIONAL: Spread<Clause> = Spread {
    word: "optional",
    text: "random cases with an optional choice in a
# table, spread over the answers and the clauses about optional choices; the answers are the
# reference's.",
    draw: |rng| drawn(random_small_optional_case(rng), clauses::shown),
    clauses: &Clause::ALL,
};

/// Those with a list on the path of a choice.
const LISTS: Spread<ListClause> = Spread {
    word: "lists",
    text: "random cases with a list on the path of a
# choice, spread over the answers and the clauses about such lists; the answers are the
# reference's.",
    draw: |rng| drawn(random_small_listed_case(rng), lists::shown),
    clauses: &ListClause::ALL,
};

/// Those with an accent.
const ACCENTS: Spread<CharacterClause> = Spread {
    word: "accents",
    text: "random cases with a character from A0 to
# FF in the tree, spread over the answers and the clauses about characters; the answers are the
# reference's.",
    draw: |rng| drawn(random_small_accented_case(rng), characters::shown),
    clauses: &CharacterClause::ALL,
};

/// Those that ask why paths clash.
const CLASHES: Spread<ClashClause> = Spread {
    word: "clashes",
    text: "random questions why paths clash,
# spread over the reasons, the kinds of source types and the other answers; the answers are the
# reference's.",
    draw: |rng| drawn_question(random_small_question(rng)),
    clauses: &ClashClause::ALL,
};

/// Operations on a table, as rows and as documents.
const ON_TABLES: Spread<OperationClause> = Spread {
    word: "operations",
    text: "random rows of operations on a table,
# spread over what the last one shows, and such rows as documents, some damaged; the answers are
# the reference's.",
    draw: |rng| match rng.chance(75) {
        true => drawn_row(random_small_row(rng)),
        false => drawn_extension(random_small_extension(rng)),
    },
    clauses: &OperationClause::ALL,
};

/// Those that read along the paths.
const EDITED: Spread<ReadingClause> = Spread {
    word: "edited",
    text: "random target documents read along
# the paths, most of them images edited in some way, spread over the answers and what a reading
# shows; the answers are the reference's.",
    draw: |rng| drawn(random_small_edited_case(rng), reading::shown),
    clauses: &ReadingClause::ALL,
};

/// Those that are counted.
const ACROSS: Spread<CrossingClause> = Spread {
    word: "counted",
    text: "random documents that go across,
# counted, spread over what the counts show; the answers are the reference's.",
    draw: |rng| Ok(drawn_crossing(random_small_crossing(rng))),
    clauses: &CrossingClause::ALL,
};

/// Cases by the kind of their answer and by a clause that they show.
type Groups<C> = BTreeMap<(Kind, Option<C>), Vec<String>>;

/// Prints small cases in groups as equal as may be.
fn generate_spread<C: Ord + Copy>(seed: &str, count: &str, cases: Spread<C>) -> Result<bool, String> {
    let mut rng = Rng::new(seed.parse().map_err(|_| USAGE)?);
    let count: usize = count.parse().map_err(|_| USAGE)?;
    let mut groups = Groups::new();
    for _ in 0..count * DRAWN_FOR_ONE {
        let Drawn { line, kind, clause } = (cases.draw)(&mut rng)?;
        let group = groups.entry((kind, clause)).or_default();
        if group.len() < count && !group.contains(&line) {
            group.push(line);
        }
    }
    println!("# Made by `reference generate {seed} {count} {}`: {}", cases.word, cases.text);
    for (((_, _, kind), clause), lines) in spread(groups, count) {
        let text = cases.clauses.iter().find(|(named, _)| clause == Some(*named)).map(|(_, text)| *text);
        println!("\n# {}", [&kind[..]].into_iter().chain(text).collect::<Vec<&str>>().join(": "));
        lines.iter().for_each(|line| println!("{line}"));
    }
    Ok(true)
}

/// So many cases of all groups: each group has as many as the others, or all
/// that there are.
fn spread<C: Ord>(groups: Groups<C>, count: usize) -> Groups<C> {
    let most = |each: usize| groups.values().map(|lines| lines.len().min(each)).sum::<usize>();
    let each = (1..count).take_while(|&each| most(each) <= count).last().unwrap_or(1);
    groups.into_iter().map(|(key, lines)| (key, lines.into_iter().take(each).collect())).collect()
}

/// Runs one entry on documents in files, with 60,000 bytes of output unless
/// another length is given.
fn run_entry(name: &str, words: &[&str]) -> Result<bool, String> {
    let entry = Entry::ALL.into_iter().find(|entry| entry.name() == name).ok_or(USAGE)?;
    let (files, length) = match words.len().checked_sub(entry.documents()) {
        Some(0) => (words, "60000"),
        Some(1) if entry.writes() => (&words[..words.len() - 1], words[words.len() - 1]),
        _ => return Err(USAGE.to_string()),
    };
    let documents = files.iter().map(|file| read(file)).collect::<Result<_, _>>()?;
    let case = Case { entry, documents, output_length: length.parse().map_err(|_| USAGE)? };
    println!("{}", case.run()?);
    Ok(true)
}

/// Counts what goes across, for documents in files.
fn count(files: [&str; 4]) -> Result<bool, String> {
    let [source, target, embedding, tree] = files.map(read);
    let crossing = Crossing { documents: [source?, target?, embedding?, tree?] };
    println!("{}", Stated::of(&crossing.run()));
    Ok(true)
}

/// Says why paths clash, for documents in files.
fn explain(files: [&str; 3]) -> Result<bool, String> {
    let [source, target, embedding] = files.map(read);
    println!("{}", Question { documents: [source?, target?, embedding?] }.run());
    Ok(true)
}

/// Carries out operations on a table, for documents in files.
fn extend(files: [&str; 2]) -> Result<bool, String> {
    let [table, operations] = files.map(read);
    let extension = Extension { documents: [table?, operations?], output_length: MOST_REPORT };
    println!("{}", extension.run()?);
    Ok(true)
}

/// The content of a file.
fn read(file: &str) -> Result<Vec<u8>, String> {
    std::fs::read(file).map_err(|error| format!("{file}: {error}"))
}
