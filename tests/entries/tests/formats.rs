//! Every example of `docs/FORMATS.md` is run: the archive and the reference
//! give the answers that the page has, and bytes that the page repeats stand in
//! the documents of its cases. That a changed page fails is tested too.

mod page;

use lafindry_entries::{
    ensure, report, Crossings, Explained, Explanations, Extended, Extensions, Failure, Tally,
};
use lafindry_reference::explanation::Reason;
use lafindry_reference::table::accept;
use lafindry_reference::vectors::crossings::{self, Crossing};
use lafindry_reference::vectors::{Answer, Case, Entry};
use lafindry_reference::{MOST_BYTES, SOURCE, TARGET};
use page::examples::{Asked, Example, Examples};
use page::terms::byte_of;
use page::{drawings, spans, Page, PAGE};

/// The content of a file of the repository.
fn content(name: &str) -> Result<Vec<u8>, Failure> {
    let path = format!("{}/../../{name}", env!("CARGO_MANIFEST_DIR"));
    std::fs::read(path).map_err(|error| Failure(format!("{name}: {error}")))
}

/// The text of the page.
fn page_text() -> Result<String, Failure> {
    String::from_utf8(content(PAGE)?).map_err(|error| Failure(format!("{PAGE}: {error}")))
}

/// What a page has: its cases, the images among their answers brought back and
/// those that it counts, explanations of clashes, operations on tables, drawings,
/// and rows of bytes elsewhere.
#[derive(Default)]
struct Seen {
    cases: Tally,
    returns: Tally,
    crossings: Crossings,
    counted: usize,
    explanations: Explanations,
    extensions: Extensions,
    drawings: usize,
    spans: usize,
}

/// Runs all examples of a page and looks at all its bytes.
fn check_page(text: &str) -> Result<Seen, Failure> {
    let page = Page::read(text)?;
    let examples = Examples::read(&page)?;
    let mut seen = Seen::default();
    for example in &examples.all {
        check_example(example, &mut seen).map_err(|failure| example.line.fault(failure.0))?;
    }
    seen.drawings = drawings::check(&page, &examples)?;
    seen.spans = spans::check(&page, &examples)?;
    Ok(seen)
}

/// Compares the page's answer with the reference's and with the library's. A
/// document that was carried has to come back.
fn check_example(example: &Example, seen: &mut Seen) -> Result<(), Failure> {
    let (case, answer, heights, counted) = match &example.asked {
        Asked::Entry { case, answer, heights, counted } => (case, answer, heights, counted),
        Asked::Explanation { question, stated } => return seen.explanations.compare_with(question, stated),
        Asked::Extension { extension, answer } => return seen.extensions.compare_with(extension, answer),
    };
    seen.cases.compare_with(case, answer)?;
    if let Some(heights) = heights {
        check_heights(case, heights)?;
    }
    if let Some(stated) = counted {
        check_counted(case, stated, seen)?;
    }
    match (case.entry, answer) {
        (Entry::Carry, Answer::Ok { output, .. }) => comes_back(case, output, &mut seen.returns),
        _ => Ok(()),
    }
}

/// Fails unless the types of the target table have these heights.
fn check_heights(case: &Case, heights: &[u64]) -> Result<(), Failure> {
    let table = accept(&case.documents[1], TARGET);
    let table = table.map_err(|refusal| Failure(format!("the target table: {refusal:?}")))?;
    let given: Vec<u64> = table.heights().into_iter().flatten().collect();
    ensure(given == heights, format!("the page has heights {heights:?}, the reference gives {given:?}"))
}

/// Fails unless what went across is counted so.
fn check_counted(case: &Case, stated: &crossings::Stated, seen: &mut Seen) -> Result<(), Failure> {
    let documents = case.documents.clone().try_into().map_err(|_| Failure("not four documents".into()))?;
    seen.counted += 1;
    seen.crossings.compare_with(&Crossing { documents }, stated)
}

/// Fails unless an image gives the tree that was carried.
fn comes_back(case: &Case, image: &[u8], tally: &mut Tally) -> Result<(), Failure> {
    let mut documents = case.documents.clone();
    documents[3] = image.to_vec();
    match tally.compare(&Case { entry: Entry::BringBack, documents, output_length: MOST_BYTES })? {
        Answer::Ok { output, .. } if output == case.documents[3] => Ok(()),
        other => Err(Failure(format!("the image does not come back: {other}"))),
    }
}

#[test]
fn examples_of_the_page_agree() -> Result<(), Failure> {
    let text = page_text()?;
    let Seen { cases, returns, crossings, counted, explanations, extensions, drawings, spans } =
        check_page(&text)?;
    let histogram = cases.finish(PAGE)?;
    returns.finish(&format!("{PAGE}, images brought back"))?;
    crossings.finish(&format!("{PAGE}, images counted"), 0)?;
    ensure(counted >= 9, format!("only {counted} images counted"))?;
    let explained = explanations.finish(&format!("{PAGE}, explanations"))?;
    let documents = extensions.total();
    let extended = extensions.finish(&format!("{PAGE}, operations"))?;
    report(&format!("{PAGE}: {drawings} drawings and {spans} rows of bytes stand in their documents"));
    let blocks = text.lines().filter(|line| line.trim_start().starts_with("```case")).count();
    let total = histogram.total() + explained.values().sum::<usize>() + documents;
    ensure(total == blocks, format!("{total} cases in {blocks} code blocks"))?;
    ensure(blocks >= 173 && drawings >= 19 && spans >= 12, "fewer examples than the page had")?;
    for number in (0..=15).chain([17]) {
        ensure(histogram.of_any(number) > 0, format!("no example of refusal {number} (0: accepted)"))?;
    }
    let missing = Reason::ALL.into_iter().find(|&reason| !explained.contains_key(&Explained::Clash(reason)));
    ensure(missing.is_none(), format!("no example of a clash explained by {missing:?}"))?;
    let refuses_table = |extended: &Extended| matches!(extended, Extended::Document((_, SOURCE)));
    let missing = Extended::all().find(|one| !refuses_table(one) && !extended.contains_key(one));
    ensure(missing.is_none(), format!("no example of operations with {missing:?}"))?;
    ensure(extended.keys().any(refuses_table), "no example of operations on a refused table")
}

/// The files of examples, and the documents of the page that they hold.
const FILES: [(&str, &str); 15] = [
    ("patch/s1", "patch.source"),
    ("patch/s2", "patch.target"),
    ("patch/em", "patch.embedding"),
    ("patch/tr", "patch.tree"),
    ("patch/accented", "accented.tree"),
    ("module/s1", "module.source"),
    ("module/s2", "module.target"),
    ("module/em", "module.embedding"),
    ("module/tr", "module.tree"),
    ("module/present", "module-present.tree"),
    ("rack/s1", "rack.source"),
    ("rack/s2", "rack.target"),
    ("rack/em", "rack.embedding"),
    ("rack/tr", "rack.tree"),
    ("rack/edited", "rack-edited.tree"),
];

#[test]
fn files_are_those_of_the_page() -> Result<(), Failure> {
    let text = page_text()?;
    let examples = Examples::read(&Page::read(&text)?)?;
    for (file, name) in FILES {
        let document = examples.named.get(name).ok_or_else(|| Failure(format!("{PAGE}: no {name}")))?;
        ensure(content(&format!("examples/{file}"))? == *document, format!("examples/{file} is not {name}"))?;
    }
    Ok(())
}

/// The line with its last number increased by one; the reason for a clash may
/// stand behind it.
fn other_number(line: &str) -> Option<String> {
    let (before, last) = line.rsplit_once(' ')?;
    match last.parse::<u64>() {
        Ok(number) => Some(format!("{before} {}", number + 1)),
        Err(_) => Some(format!("{} {last}", other_number(before)?)),
    }
}

/// The line with another reason for the one that stands last.
fn other_reason(line: &str) -> Option<String> {
    let (before, last) = line.rsplit_once(' ')?;
    let at = Reason::ALL.iter().position(|reason| reason.name() == last)?;
    Some(format!("{before} {}", Reason::ALL[(at + 1) % 4].name()))
}

/// The line with another byte for the first of at least so many in a row, from
/// a place on; words are parted by blanks and by `` ` ``.
fn other_byte(line: &str, from: usize, least: usize) -> Option<String> {
    let is_end = |at: usize| line[at..].chars().next().is_none_or(|c| matches!(c, ' ' | '`'));
    let is_byte = |at: usize| {
        let starts = at == 0 || matches!(line.as_bytes()[at - 1], b' ' | b'`');
        starts && line.get(at..at + 2).and_then(byte_of).is_some() && is_end(at + 2)
    };
    let found = (from..line.len()).find(|&at| (0..least).all(|k| is_byte(at + 3 * k)))?;
    // No document of the page has the byte 8E.
    Some(format!("{}8E{}", &line[..found], &line[found + 2..]))
}

/// A line of the page with each change that has to be noticed, if it is of a
/// kind that has one; `inside` is the kind of code block around it.
fn changed(line: &str, inside: Option<&str>) -> Vec<String> {
    let other = match inside {
        Some("case") if line.starts_with("answer: ") => {
            return other_number(line).into_iter().chain(other_reason(line)).collect();
        }
        Some("case") if line.starts_with("heights: ") || line.starts_with("counted: ") => other_number(line),
        Some("case") if line.starts_with("output: ") || line.starts_with("report: ") => {
            other_byte(line, "output: ".len(), 1)
        }
        Some("bytes") => {
            let offset = line.len() - line.trim_start().len() + line.trim_start().find(' ').unwrap_or(0);
            other_byte(line, offset, 1)
        }
        Some("characters") => Some(line.replacen(' ', " x ", 1)),
        Some("text") => other_byte(line, 0, 3),
        None => line.find('`').and_then(|first| other_byte(line, first, 3)),
        _ => None,
    };
    other.into_iter().collect()
}

/// Tries every change of a line of a page; each has to be noticed. Gives how many
/// there are.
fn try_changes(text: &str) -> Result<usize, Failure> {
    let lines: Vec<&str> = text.lines().collect();
    let (mut inside, mut tried) = (None, 0);
    for (at, line) in lines.iter().enumerate() {
        if let Some(kind) = line.strip_prefix("```") {
            inside = inside.is_none().then_some(kind);
            continue;
        }
        for other in changed(line, inside) {
            let whole = [&lines[..at], &[other.as_str()], &lines[at + 1..]].concat().join("\n");
            let noticed = check_page(&whole).is_err();
            ensure(noticed, format!("{PAGE}:{}: '{other}' in its place is not noticed", at + 1))?;
            tried += 1;
        }
    }
    Ok(tried)
}

#[test]
fn a_changed_page_fails() -> Result<(), Failure> {
    let tried = try_changes(&page_text()?)?;
    report(&format!("{PAGE}: {tried} changes of a line are noticed"));
    ensure(tried >= 300, format!("only {tried} changes tried"))
}

/// A page with explanations in each form.
const EXPLAINING: &str = "\
```case
name: equal
entry: explain clash
source: 17 15 01 15 02 11 11 1F
target: 17 15 01 11 1F
embedding: 20 00 21 22 01 21 22 01 20 01 20 01 2F
answer: clash 0 1 2 1 equal
```

```case
like: equal
entry: explain clash
embedding: equal.embedding[0..5] 21 22 02
  equal.embedding[8..]
answer: none refused 4 3 6
```

```case
like: equal
entry: explain clash
target: equal.source
embedding: equal.embedding[0..7] 02 20 01 20 02 2F
answer: none accepted 2
```
";

#[test]
fn explanations_on_a_page_are_read() -> Result<(), Failure> {
    let seen = check_page(EXPLAINING)?;
    let explained: usize = seen.explanations.finish("a page with explanations")?.values().sum();
    ensure(explained == 3, format!("{explained} explanations"))?;
    let tried = try_changes(EXPLAINING)?;
    ensure(tried == 4, format!("{tried} changes tried"))?;
    let wrong = [
        ("none accepted 2", "none ok 2"),
        ("none accepted 2", "accepted 2"),
        ("none refused 4 3 6", "refused 4 3 6"),
        ("1 equal", "1 alike"),
        ("clash 0 1 2 1 equal", "refused 10 3 5"),
        ("explain clash", "explain"),
        ("answer: none accepted 2", "heights: 1 1 1\nanswer: none accepted 2"),
        ("answer: none accepted 2", "room: 3\nanswer: none accepted 2"),
        ("answer: none accepted 2", "tree: 3F\nanswer: none accepted 2"),
    ];
    ensure_noticed(EXPLAINING, &wrong)
}

/// Fails where a part of a page is not there, or another one in its place is not
/// noticed.
fn ensure_noticed(page: &str, wrong: &[(&str, &str)]) -> Result<(), Failure> {
    let unnoticed = wrong
        .iter()
        .find(|(right, other)| !page.contains(right) || check_page(&page.replacen(right, other, 1)).is_ok());
    ensure(unnoticed.is_none(), format!("{unnoticed:?} is not noticed"))
}

/// A page with documents read along the paths, one of them refused.
const READING: &str = "\
```case
name: first
entry: read along
source: 10 1F
target: 14 01 10 1F
embedding: 20 00 21 22 01 2F
tree: 30 00 30 01 31 41 32 30 01 32 32 3F
answer: read 6 1
output: 30 00 31 41 32 3F
```

```case
like: first
entry: read along
tree: 30 00 32 3F
room: 0
answer: refused 17 4 0
```
";

#[test]
fn readings_on_a_page_are_read() -> Result<(), Failure> {
    let seen = check_page(READING)?;
    let histogram = seen.cases.finish("a page with readings")?;
    ensure([0, 17].map(|number| histogram.of(Entry::ReadAlong, number)) == [1, 1], "not two cases")?;
    let tried = try_changes(READING)?;
    ensure(tried == 3, format!("{tried} changes tried"))?;
    let wrong = [
        ("read 6 1", "read 6 0"),
        ("read 6 1", "read 6"),
        ("read 6 1", "brought 6"),
        ("read 6 1", "carried 6 1"),
        ("entry: read along", "entry: bring back"),
        ("entry: read along", "entry: read"),
        ("room: 0", "room: 0\noutput: 30 00 32 3F"),
        ("refused 17 4 0", "refused 15 4 0"),
    ];
    ensure_noticed(READING, &wrong)
}

/// A page with an image that is counted: a list of two texts, one step before the
/// list.
const COUNTING: &str = "\
```case
entry: carry
source: 14 01 10 1F
target: 12 15 01 14 02 10 1F
embedding: 20 00 21 22 01 22 01 20 02 21 2F
tree: 30 00 30 01 32 30 01 32 32 3F
answer: carried 13 0
output: 30 00 30 01 30 02 32 30 02 32 32 32 3F
counted: 4 0 3 0@0,1@4,1@7
```
";

#[test]
fn counts_on_a_page_are_read() -> Result<(), Failure> {
    let seen = check_page(COUNTING)?;
    ensure(seen.counted == 1, format!("{} images counted", seen.counted))?;
    seen.crossings.finish("a page with a count", 0)?;
    let tried = try_changes(COUNTING)?;
    ensure(tried == 3, format!("{tried} changes tried"))?;
    let wrong = [
        ("counted: 4 0 3 ", "counted: 5 0 4 "),
        ("counted: 4 0 3 ", "counted: 4 1 2 "),
        ("counted: 4 0 3 ", "counted: 4 0 "),
        ("0@0,1@4,1@7", "0@0,1@4"),
        ("0@0,1@4,1@7", "0@0,1@7,1@4"),
        ("0@0,1@4,1@7", "0@0,2@4,2@7"),
        ("entry: carry", "entry: bring back"),
        ("carried 13 0", "refused 13 5 0"),
    ];
    ensure_noticed(COUNTING, &wrong)
}

/// A page with operations on a table, accepted and refused.
const EXTENDING: &str = "\
```case
name: lower
entry: extend table
table: 12 15 01 13 15 00 15 02 12 15 03 11 1F
operations: 52 01 03
answer: extended 15
report: 04 03 00 09 02 00 06 02 00 06 01 00 03 00 04
```

```bytes
lower.report (15 bytes)
 0 04       | four types
 1 03 00 09 | type 0 has height 3 and length 9
 4 02 00 06
 7 02 00 06
10 01 00 03
13 00 04    | a member was appended, and there are four types
```

```case
like: lower
entry: extend table
operations: lower.operations 51
room: 3
answer: refused 2 11 3
```
";

#[test]
fn operations_on_a_page_are_read() -> Result<(), Failure> {
    let seen = check_page(EXTENDING)?;
    ensure(seen.extensions.total() == 2, "not two cases")?;
    seen.extensions.finish("a page with operations")?;
    let tried = try_changes(EXTENDING)?;
    ensure(tried == 9, format!("{tried} changes tried"))?;
    let wrong = [
        ("extended 15", "accepted 15"),
        ("extended 15", "carried 15 0"),
        ("extended 15\nreport", "extended 15\noutput"),
        ("extended 15", "extended 15\nheights: 3 2 2 1"),
        ("operations: 52", "tree: 3F\noperations: 52"),
        ("room: 3", "room: 3\nreport: 04"),
        ("entry: extend table", "entry: judge table"),
        ("entry: extend table", "entry: extend"),
    ];
    ensure_noticed(EXTENDING, &wrong)
}
