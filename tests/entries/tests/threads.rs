//! Threads call the entries at once, with the same documents, each with an
//! output and a stack of its own: every answer is the one that is stated.

use lafindry_entries::{
    call, call_explain, call_extend, ensure, read, read_explanation, read_extension, report, Failure,
};
use lafindry_reference::extension::Report;
use lafindry_reference::vectors::explanations::{self, Question, Stated};
use lafindry_reference::vectors::operations::{self, Row};
use lafindry_reference::vectors::{is_skipped, parse_line, Answer, Case, JUNK};
use std::thread;

/// How many threads call at once.
const THREADS: usize = 4;

/// The stack of a thread, which is enough for every entry.
const STACK: usize = 1 << 20;

/// The lines of a file under tests/data as they are read.
fn lines<T>(name: &str, parse: fn(&str) -> Result<T, String>) -> Result<Vec<T>, Failure> {
    let path = format!("{}/../data/{name}", env!("CARGO_MANIFEST_DIR"));
    let text = std::fs::read_to_string(&path).map_err(|error| Failure(format!("{path}: {error}")))?;
    let lines = text.lines().filter(|line| !is_skipped(line));
    lines.map(|line| parse(line).map_err(|message| Failure(format!("{name}: {message}")))).collect()
}

/// Runs a case.
fn run_case((case, stated): &(Case, Answer)) -> Result<(), Failure> {
    let mut output = vec![JUNK; case.output_length];
    let given = call(case.entry, &case.documents, &mut output);
    let answer = read(case, given, &output).map_err(|message| Failure(format!("{case}: {message}")))?;
    ensure(answer == *stated, format!("{case} -> {answer}\nstated: {stated}"))?;
    let kept = stated.final_output(&vec![JUNK; case.output_length]) == output;
    ensure(kept, format!("{case}: another byte of the output changed"))
}

/// Asks a question.
fn ask((question, stated): &(Question, Stated)) -> Result<(), Failure> {
    let explanation = read_explanation(question, call_explain(&question.documents));
    let explanation = explanation.map_err(|message| Failure(format!("{question}: {message}")))?;
    ensure(Stated::of(&explanation) == *stated, format!("{question} -> {explanation}\nstated: {stated}"))
}

/// Carries out the operations of a row.
fn extend((row, stated): &(Row, Report)) -> Result<(), Failure> {
    let written = stated.to_bytes();
    let extension = row.lent(written.len() + 1);
    let mut output = vec![JUNK; extension.output_length];
    let answer = read_extension(call_extend(&extension.documents, &mut output), &output);
    let answer = answer.map_err(|message| Failure(format!("{extension}: {message}")))?;
    let expected = Answer::Ok { value: written.len() as u64, filler: 0, output: written };
    let kept = expected.final_output(&vec![JUNK; extension.output_length]) == output;
    ensure(answer == expected && kept, format!("{extension} -> {answer}\nstated: {expected}"))
}

/// Runs all lines of a kind, beginning in each thread with another one.
fn run_from<T>(lines: &[T], thread: usize, run: fn(&T) -> Result<(), Failure>) -> Result<(), Failure> {
    let (before, behind) = lines.split_at(thread * lines.len() / THREADS);
    behind.iter().chain(before).try_for_each(run)
}

#[test]
fn threads_at_once_agree() -> Result<(), Failure> {
    let mut cases = lines("base.txt", parse_line)?;
    cases.extend(lines("n4.txt", parse_line)?);
    let questions = lines("n9.txt", explanations::parse_line)?;
    let rows = lines("n8.txt", operations::parse_line)?;
    let ended: Vec<Result<(), Failure>> = thread::scope(|scope| {
        let begin = |number: usize| {
            let (cases, questions, rows) = (&cases, &questions, &rows);
            let thread = thread::Builder::new().stack_size(STACK);
            thread.spawn_scoped(scope, move || {
                run_from(cases, number, run_case)?;
                run_from(questions, number, ask)?;
                run_from(rows, number, extend)
            })
        };
        let begun: Vec<_> = (0..THREADS).map(begin).collect();
        let end = |thread: std::io::Result<thread::ScopedJoinHandle<_>>| match thread {
            Ok(thread) => thread.join().unwrap_or_else(|_| Err(Failure("a thread panicked".into()))),
            Err(error) => Err(Failure(error.to_string())),
        };
        begun.into_iter().map(end).collect()
    });
    let count = ended.into_iter().collect::<Result<Vec<()>, Failure>>()?.len();
    let lines = [cases.len(), questions.len(), rows.len()];
    let [cases, questions, rows] = lines;
    report(&format!(
        "{cases} cases, {questions} questions and {rows} rows in each of {count} threads at once"
    ));
    ensure(count == THREADS && lines == [3851 + 985, 1013, 929], "too few threads or lines")
}
