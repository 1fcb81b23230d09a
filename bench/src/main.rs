//! Times the library and the reference on the same inputs, in one run: the five
//! entries, reading along, the explanation of clashes, and operations on tables. First each
//! input's answer and output bytes are compared. A line has the length of the last
//! document, for operations with that of the table, and of what is written, both
//! times of one call in microseconds, and the library's time divided by the
//! reference's. Where an input has many cases, all these are means.

mod documents;
mod images;
mod inputs;

use inputs::{Asked, Input, Operated};
use lafindry_entries::{call, call_explain, call_extend, ensure, Explanations, Extensions, Failure, Tally};
use lafindry_reference::vectors::explanations::EXPLAIN;
use lafindry_reference::vectors::operations::EXTEND;
use lafindry_reference::vectors::{Answer, Case, Entry};
use lafindry_reference::{
    bring_back, carry, extend_table, judge_embedding, judge_table, judge_tree, read_along,
};
use lafindry_reference::{Refusal, MOST_BYTES};
use std::hint::black_box;
use std::process::ExitCode;
use std::time::{Duration, Instant};

/// How many times each side is timed at most, and for how long at most. The
/// best time counts, as the others are longer only by what else the machine
/// does.
const ROUNDS: u32 = 500;
const MOST: Duration = Duration::from_millis(800);
/// The least duration of a timing, reached by repeating the call. It is short,
/// so that some timings are not interrupted on a busy machine.
const LEAST: Duration = Duration::from_micros(200);

fn main() -> ExitCode {
    match time_all() {
        Ok(rows) => {
            let entries = Entry::ALL.map(Entry::name);
            entries.iter().chain(&[EXPLAIN, EXTEND]).for_each(|entry| print_highest(entry, &rows));
            ExitCode::SUCCESS
        }
        Err(failure) => {
            println!("the answers differ\n{failure:?}");
            ExitCode::from(1)
        }
    }
}

/// Times all inputs and prints each.
fn time_all() -> Result<Vec<Row>, Failure> {
    print_row(["entry", "input", "bytes", "written", "library", "reference", "ratio", "answer"]);
    let (inputs, questions, operated) = (inputs::all(), inputs::questions(), inputs::operated());
    let rows = inputs.iter().map(time_input).chain(questions.iter().map(time_question));
    let rows = rows.chain(operated.iter().map(time_operations));
    rows.inspect(|row| row.iter().for_each(Row::print)).collect()
}

/// Prints the highest ratio of an entry, and that near the greatest length.
fn print_highest(entry: &str, rows: &[Row]) {
    let of_entry = || rows.iter().filter(|row| row.entry == entry);
    let long = of_entry().filter(|row| row.bytes.max(row.written) > 59_000);
    print!("highest ratio of {entry}: {:.2}", of_entry().map(Row::ratio).fold(0.0, f64::max));
    match long.map(Row::ratio).reduce(f64::max) {
        Some(ratio) => println!(", above 59,000 bytes {ratio:.2}"),
        None => println!(),
    }
}

/// What is printed of an input.
struct Row {
    entry: &'static str,
    name: &'static str,
    bytes: usize,
    written: usize,
    /// Microseconds of one call.
    library: f64,
    reference: f64,
    answer: String,
}

impl Row {
    fn ratio(&self) -> f64 {
        self.library / self.reference
    }

    fn print(&self) {
        print_row([
            self.entry,
            self.name,
            &self.bytes.to_string(),
            &self.written.to_string(),
            &format!("{:.3}", self.library),
            &format!("{:.3}", self.reference),
            &format!("{:.2}", self.ratio()),
            &self.answer,
        ]);
    }
}

/// Prints a row in columns.
fn print_row([entry, input, bytes, written, library, reference, ratio, answer]: [&str; 8]) {
    println!(
        "{entry:<15} {input:<30} {bytes:>6} {written:>7} {library:>10} {reference:>10} {ratio:>6}  {answer}"
    );
}

/// The answers to the cases of an input, which are the same on both sides.
fn answers(input: &Input) -> Result<Vec<Answer>, Failure> {
    let mut tally = Tally::default();
    input.cases.iter().map(|case| tally.compare(case)).collect()
}

/// Compares the answers to an input, then times both sides.
fn time_input(input: &Input) -> Result<Row, Failure> {
    let answers = answers(input)?;
    let Input { name, cases } = input;
    let (mut output, mut other) = (vec![0; MOST_BYTES], vec![0; MOST_BYTES]);
    let (library, reference) = best_times(
        || cases.iter().for_each(|case| library_call(black_box(case), &mut output)),
        || cases.iter().for_each(|case| reference_call(black_box(case), &mut other)),
    );
    ensure(output == other, "after the timing the outputs differ")?;
    let count = cases.len();
    let bytes = cases.iter().map(|case| case.documents[case.documents.len() - 1].len()).sum::<usize>();
    let written = answers.iter().map(written).sum::<usize>();
    Ok(Row {
        entry: cases[0].entry.name(),
        name,
        bytes: bytes / count,
        written: written / count,
        library: library / count as f64,
        reference: reference / count as f64,
        answer: if count == 1 { summary(&answers[0]) } else { format!("{count} accepted") },
    })
}

/// Compares the explanations to a question, then times both sides.
fn time_question(Asked { name, question }: &Asked) -> Result<Row, Failure> {
    let (_, explanation) = Explanations::default().compare(question)?;
    let (library, reference) = best_times(
        || _ = black_box(call_explain(black_box(&question.documents))),
        || _ = black_box(black_box(question).run()),
    );
    let bytes = question.documents[2].len();
    Ok(Row { entry: EXPLAIN, name, bytes, written: 0, library, reference, answer: explanation.to_string() })
}

/// Compares the reports of operations on a table, then times both sides.
fn time_operations(Operated { name, extension }: &Operated) -> Result<Row, Failure> {
    let answer = Extensions::default().compare(extension)?;
    let (mut output, mut other) = (vec![0; extension.output_length], vec![0; extension.output_length]);
    let (library, reference) = best_times(
        || _ = black_box(call_extend(black_box(&extension.documents), &mut output)),
        || {
            let [table, operations] = black_box(&extension.documents);
            let _ = black_box(extend_table(table, operations, &mut other));
        },
    );
    ensure(output == other, "after the timing the outputs differ")?;
    let bytes = extension.documents.iter().map(Vec::len).sum();
    let (written, answer) = (written(&answer), summary(&answer));
    Ok(Row { entry: EXTEND, name, bytes, written, library, reference, answer })
}

/// How many bytes an answer wrote.
fn written(answer: &Answer) -> usize {
    match answer {
        Answer::Ok { output, .. } => output.len(),
        Answer::Refused(_) => 0,
    }
}

/// An answer without the bytes written.
fn summary(answer: &Answer) -> String {
    match answer {
        Answer::Ok { value, filler: 0, .. } => format!("ok {value}"),
        Answer::Ok { value, filler, .. } => format!("ok {value}, filler {filler}"),
        refused => refused.to_string(),
    }
}

/// Calls the library.
fn library_call(case: &Case, output: &mut [u8]) {
    black_box(call(case.entry, &case.documents, &mut output[..case.output_length]));
}

/// Calls the reference as the library is called.
fn reference_call(case: &Case, output: &mut [u8]) {
    let (d, output) = (&case.documents, &mut output[..case.output_length]);
    let answer: Result<(u64, u64), Refusal> = match case.entry {
        Entry::JudgeTable => judge_table(&d[0]).map(|types| (types, 0)),
        Entry::JudgeEmbedding => judge_embedding(&d[0], &d[1], &d[2]).map(|edges| (edges, 0)),
        Entry::JudgeTree => judge_tree(&d[0], &d[1]).map(|elements| (elements, 0)),
        Entry::Carry => carry(&d[0], &d[1], &d[2], &d[3], output).map(|c| (c.length, c.filler)),
        Entry::BringBack => bring_back(&d[0], &d[1], &d[2], &d[3], output).map(|length| (length, 0)),
        Entry::ReadAlong => read_along(&d[0], &d[1], &d[2], &d[3], output).map(|r| (r.length, r.aside)),
    };
    let _ = black_box(answer);
}

/// The best times of one call of two functions, in microseconds. They are
/// timed in turn, so that a slow phase of the machine meets both.
fn best_times(mut first: impl FnMut(), mut second: impl FnMut()) -> (f64, f64) {
    let (calls_first, calls_second) = (enough_calls(&mut first), enough_calls(&mut second));
    let mut best = (f64::INFINITY, f64::INFINITY);
    let start = Instant::now();
    for round in 0..ROUNDS {
        best.0 = best.0.min(time(&mut first, calls_first).as_secs_f64() * 1e6 / calls_first as f64);
        best.1 = best.1.min(time(&mut second, calls_second).as_secs_f64() * 1e6 / calls_second as f64);
        if round >= 10 && start.elapsed() > 2 * MOST {
            break;
        }
    }
    best
}

/// How many calls last long enough to be timed.
fn enough_calls(function: &mut impl FnMut()) -> u32 {
    let mut calls = 1;
    while time(function, calls) < LEAST {
        calls *= 2;
    }
    calls
}

/// How long some calls last.
fn time(function: &mut impl FnMut(), calls: u32) -> Duration {
    let start = Instant::now();
    for _ in 0..calls {
        function();
    }
    start.elapsed()
}

#[cfg(test)]
mod tests {
    use super::*;
    use lafindry_reference::clauses::operations::{shown, OperationClause};

    /// The benchmark can be built, and times nothing but equal answers.
    #[test]
    fn both_sides_answer_alike() -> Result<(), Failure> {
        let (mut explanations, mut extensions) = (Explanations::default(), Extensions::default());
        inputs::all().iter().try_for_each(|input| answers(input).map(drop))?;
        inputs::questions().iter().try_for_each(|asked| explanations.compare(&asked.question).map(drop))?;
        inputs::operated().iter().try_for_each(|operated| extensions.compare(&operated.extension).map(drop))
    }

    /// The edited images are of about 60,000 bytes and no images; all but the last
    /// are read, with elements aside, and that one is refused at its end.
    #[test]
    fn edited_images_are_long() -> Result<(), Failure> {
        let edited = images::edited();
        for (number, Input { name, cases }) in edited.iter().enumerate() {
            let document = &cases[0].documents[3];
            let answer = answers(&edited[number])?.remove(0);
            let back = Case { entry: Entry::BringBack, ..cases[0].clone() };
            let is_image = matches!(back.run_into(&mut vec![0; MOST_BYTES]), Answer::Ok { .. });
            let right = match answer {
                Answer::Ok { filler, .. } => number + 1 < edited.len() && filler > 0,
                Answer::Refused(Refusal { number: refusal, mark, .. }) => {
                    number + 1 == edited.len() && refusal == 17 && mark as usize + 10 > document.len()
                }
            };
            let is_long = document.len() > 59_800;
            ensure(
                right && is_long && !is_image,
                format!("{name}: {} bytes, {}", document.len(), summary(&answer)),
            )?;
        }
        Ok(())
    }

    /// All operations of the benchmark are accepted, and so many move numbers.
    #[test]
    fn operations_are_accepted() -> Result<(), Failure> {
        for (row, expected) in [(documents::many_members(), 0), (documents::lower_members(), 672)] {
            let report = row.run().map_err(|refusal| Failure(refusal.to_string()))?;
            ensure(report.answers.iter().all(Result::is_ok), row.line(&report))?;
            let shown = shown(&row, &report).concat();
            let moving = shown.iter().filter(|clause| **clause == OperationClause::LowerMember).count();
            ensure(moving == expected, format!("{moving} members move numbers"))?;
        }
        Ok(())
    }
}
