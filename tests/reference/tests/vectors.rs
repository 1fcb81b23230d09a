//! The vector files agree with the reference, and lines are read as written.
//! Where they come from is said at `lafindry_reference::vectors`.

use lafindry_reference::generate::{
    random_extension, random_row, random_small_case, random_small_crossing, random_small_edited_case,
    random_small_question, Rng,
};
use lafindry_reference::vectors::crossings::{self, is_crossing};
use lafindry_reference::vectors::explanations::{self, is_question, Stated};
use lafindry_reference::vectors::operations::{self, is_extension, is_row};
use lafindry_reference::vectors::{check_line, from_hex, is_skipped, parse_line, to_hex};

/// Runs every line of a file under tests/data.
fn run_file(name: &str) {
    let checked = |line: &str| check_line(line).map(|_| ());
    assert!(run_lines(name, checked) > 100, "{name}: few lines");
}

/// Runs every line of a file under tests/data by a check; gives how many there
/// are.
fn run_lines(name: &str, check: impl Fn(&str) -> Result<(), String>) -> usize {
    let path = format!("{}/../data/{name}", env!("CARGO_MANIFEST_DIR"));
    let text = std::fs::read_to_string(&path).expect(&path);
    let mut passed = 0;
    for (number, line) in text.lines().enumerate().filter(|(_, line)| !is_skipped(line)) {
        if let Err(message) = check(line) {
            panic!("{name}:{}: {message}", number + 1);
        }
        passed += 1;
    }
    passed
}

#[test]
fn base_vectors_agree() {
    run_file("base.txt");
}

#[test]
fn worked_cases_agree() {
    run_file("cases-01.txt");
}

#[test]
fn optional_choice_vectors_agree() {
    run_file("n3.txt");
}

#[test]
fn optional_choice_cases_agree() {
    run_file("cases-n3.txt");
}

#[test]
fn list_vectors_agree() {
    run_file("n6.txt");
}

#[test]
fn list_cases_agree() {
    run_file("cases-n6.txt");
}

#[test]
fn accent_vectors_agree() {
    run_file("n5.txt");
}

#[test]
fn accent_cases_agree() {
    run_file("cases-n5.txt");
}

#[test]
fn reading_vectors_agree() {
    assert_eq!(run_lines("n4.txt", |line| check_line(line).map(|_| ())), 985);
}

#[test]
fn wrong_readings_are_errors() {
    let line = "read_along 101f 1215011501101f 20002122012f 30003001323001314132323f 4 -> ok 4 1 3000323f";
    assert!(check_line(line).is_ok(), "{line}");
    let wrong = [
        ("ok 4 1", "ok 4 0"),
        ("ok 4 1", "ok 5 1"),
        ("3000323f", "3000323e"),
        (" 4 ->", " 3 ->"),
        (" 4 ->", " ->"),
    ];
    for (right, other) in wrong {
        assert!(check_line(&line.replace(right, other)).is_err(), "{other}");
    }
}

#[test]
fn counted_vectors_agree() {
    let lines = run_lines("n14.txt", |line| {
        assert!(is_crossing(line));
        crossings::check_line(line).map(|_| ())
    });
    assert_eq!(lines, 638);
}

#[test]
fn a_printed_count_is_read_back() {
    let mut rng = Rng::new(14);
    for _ in 0..500 {
        let crossing = random_small_crossing(&mut rng);
        let stated = crossings::Stated::of(&crossing.run());
        let line = format!("{crossing} -> {stated}");
        assert!(is_crossing(&line));
        assert_eq!(crossings::parse_line(&line), Ok((crossing, stated)));
    }
}

#[test]
fn wrong_counts_are_errors() {
    let line = "counted 1401101f 140114021403101f 2000212201220120022122012f 3000300132300132323f \
                -> ok 7 0 6 0@0,1@4,1@13";
    assert!(crossings::check_line(line).is_ok(), "{line}");
    let wrong = [
        ("ok 7", "ok 8"),
        ("7 0 6", "7 1 6"),
        ("0 6 ", "0 5 "),
        ("1@4", "1@6"),
        ("1@4", "2@4"),
        ("1@4,1@13", "1@13,1@4"),
        (",1@13", ""),
        ("1@13", "1@13,1@13"),
        ("32323f ->", "3232 ->"),
    ];
    for (right, other) in wrong {
        let line = line.replace(right, other);
        assert!(crossings::parse_line(&line).is_ok() && crossings::check_line(&line).is_err(), "{line}");
    }
    let unread = [
        ("counted", "carry"),
        ("counted 1401101f", "counted"),
        (" ->", " 60000 ->"),
        ("->", ""),
        ("ok", ""),
        ("0@0,1@4,1@13", ""),
        ("1@4", "1"),
        ("1@4", "256@4"),
        ("1@4", "1@"),
        ("1@4", ""),
    ];
    for (right, other) in unread {
        let line = line.replace(right, other);
        assert!(crossings::parse_line(&line).is_err(), "{line}");
    }
}

#[test]
fn explanation_vectors_agree() {
    let lines = run_lines("n9.txt", |line| {
        assert!(is_question(line));
        explanations::check_line(line).map(|_| ())
    });
    assert_eq!(lines, 1013);
}

#[test]
fn a_printed_explanation_is_read_back() {
    let mut rng = Rng::new(12);
    for _ in 0..500 {
        let question = random_small_question(&mut rng);
        let explanation = question.run();
        let line = format!("{question} -> {explanation}");
        assert!(is_question(&line));
        assert_eq!(explanations::parse_line(&line), Ok((question, Stated::of(&explanation))));
    }
}

#[test]
fn wrong_explanations_are_errors() {
    let [equal, other] = ["equal", "parts-at-sequence"].map(|reason| format!("clash 0 1 2 1 {reason}"));
    let question = "explain 171501150211111f 171501111f 2000212201212201200120012f";
    assert!(explanations::check_line(&format!("{question} -> {equal}")).is_ok());
    for answer in [&other, "clash 0 1 2 0 equal", "clash 1 1 2 1 equal", "none ok 2", "none refused 10 3 5"] {
        assert!(explanations::check_line(&format!("{question} -> {answer}")).is_err(), "{answer}");
    }
    let lines = [
        String::new(),
        question.to_string(),
        format!("explain 101f 101f -> {equal}"),
        format!("{question} 20 -> {equal}"),
        format!("{question} -> clash 0 1 2 1 alike"),
        format!("{question} -> clash 0 1 2 equal"),
        format!("{question} -> none"),
        format!("{question} -> none ok"),
        format!("{question} -> ok 2 0 -"),
        format!("judge_embedding 101f 101f 2000212f -> {equal}"),
    ];
    for line in lines {
        assert!(explanations::parse_line(&line).is_err(), "{line}");
    }
}

#[test]
fn operation_vectors_agree() {
    let lines = run_lines("n8.txt", |line| {
        assert!(is_row(line));
        operations::check_line(line).map(|_| ())
    });
    assert_eq!(lines, 929);
}

#[test]
fn a_printed_row_is_read_back() {
    let mut rng = Rng::new(13);
    for _ in 0..500 {
        let row = random_row(&mut rng);
        let report = row.run().unwrap();
        let line = row.line(&report);
        assert!(is_row(&line));
        assert_eq!(operations::parse_line(&line), Ok((row, report)));
        let extension = random_extension(&mut rng);
        let answer = extension.run().unwrap();
        let line = format!("{extension} -> {answer}");
        assert!(is_extension(&line));
        assert_eq!(operations::parse_extension(&line), Ok((extension, answer)));
    }
}

#[test]
fn wrong_rows_are_errors() {
    let row = "keep 1315011502121502111f | member 0 0 -> ok 3 | type - -> refused 2 1 0";
    assert!(operations::check_line(&format!("{row} | kept 2/6 2/6 1/3")).is_ok());
    let wrong = [
        format!("{row} | kept 2/6 2/6 1/6"),
        format!("{row} | kept 2/6 3/6 1/3"),
        format!("{row} | kept 2/6 2/6"),
        format!("{row} | kept 2/6 2/6 1/3 1/3"),
        format!("{} | kept 2/6 2/6 1/3", row.replace("ok 3", "ok 4")),
        format!("{} | kept 2/6 2/6 1/3", row.replace("refused 2 1 0", "refused 3 1 0")),
        format!("{} | kept 2/6 2/6 1/3", row.replace("refused 2 1 0", "refused 2 1 1")),
        format!("{} | kept 2/6 2/6 1/3", row.replace("1f |", " |")),
    ];
    for line in wrong {
        assert!(operations::parse_line(&line).is_ok() && operations::check_line(&line).is_err(), "{line}");
    }
    let lines = [
        String::new(),
        row.to_string(),
        format!("{row} | kept"),
        format!("{row} | kept 2 2 1"),
        format!("{row} | 2/6 2/6 1/3"),
        format!("{} | kept 2/6 2/6 1/3", row.replace("keep", "explain")),
        format!("{} | kept 2/6 2/6 1/3", row.replace("member 0 0", "member 0")),
        format!("{} | kept 2/6 2/6 1/3", row.replace("member 0 0", "member 0 256")),
        format!("{} | kept 2/6 2/6 1/3", row.replace("type -", "type 1")),
        format!("{} | kept 2/6 2/6 1/3", row.replace("ok 3", "ok")),
        format!("{} | kept 2/6 2/6 1/3", row.replace("2 1 0", "2 1")),
        format!("{} | kept 2/6 2/6 1/3", row.replace("-> refused 2 1 0", "refused 2 1 0")),
    ];
    for line in lines {
        assert!(operations::parse_line(&line).is_err(), "{line}");
    }
}

#[test]
fn wrong_extensions_are_errors() {
    let extension = "extend_table 111f 5101 9 -> refused 2 11 0";
    assert!(operations::check_extension(extension).is_ok());
    for (right, other) in [("2 11 0", "2 11 1"), (" 9", ""), ("extend_table", "carry"), ("->", "")] {
        assert!(operations::check_extension(&extension.replace(right, other)).is_err(), "{other}");
    }
}

#[test]
fn a_printed_line_is_read_back() {
    let mut rng = Rng::new(11);
    for number in 0..1000 {
        let draw = if number % 2 == 0 { random_small_case } else { random_small_edited_case };
        let case = draw(&mut rng);
        let answer = case.run().unwrap();
        let read = parse_line(&format!("{case} -> {answer}")).unwrap();
        assert_eq!(read, (case, answer));
    }
}

#[test]
fn hexadecimal_is_read_and_written() {
    assert_eq!(to_hex(&[]), "-");
    assert_eq!(to_hex(&[0x0A, 0xFF]), "0aff");
    assert_eq!(from_hex("-"), Ok(Vec::new()));
    assert_eq!(from_hex("0AfF"), Ok(vec![0x0A, 0xFF]));
    assert!(from_hex("0").is_err() && from_hex("0g").is_err() && from_hex("é").is_err());
}

#[test]
fn wrong_lines_are_errors() {
    let lines = [
        "",
        "judge_table 101f",
        "judge_table -> ok 1 0 -",
        "judge 101f -> ok 1 0 -",
        "judge_table 101f -> ok 1",
    ];
    for line in lines {
        assert!(parse_line(line).is_err(), "{line}");
    }
    assert!(check_line("judge_table 101f -> ok 2 0 -").is_err());
}
