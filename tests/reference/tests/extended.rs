//! Operations on tables worked by hand, those of the papers and of the lists of
//! readings among them, and documents of operations.

use lafindry_reference::extension::{extend_table, read_operations, report, Operation, MOST_REPORT};
use lafindry_reference::vectors::operations::{check_line, parse_line};
use lafindry_reference::vectors::{from_hex, to_hex};
use lafindry_reference::{Refusal, MOST_BYTES, MOST_MEMBERS, MOST_TYPES};

/// The bytes of a document written in hexadecimal.
fn hex(text: &str) -> Vec<u8> {
    from_hex(&text.replace(' ', "")).unwrap()
}

/// The report of operations on a table, in hexadecimal.
fn reported(table: &str, operations: &str) -> Result<String, Refusal> {
    let report = report(&hex(table), &hex(operations))?;
    Ok(to_hex(&report.to_bytes()))
}

fn refused(number: u64, document: u64, mark: u64) -> Refusal {
    Refusal { number, document, mark }
}

/// Asserts the answers to the operations of a row and what is kept at the end.
fn assert_row(line: &str) {
    check_line(line).unwrap_or_else(|message| panic!("{message}"));
}

// Tables that keep their sums.

/// The first example of the list of readings: type 0 moves too.
#[test]
fn a_lower_member() {
    let table = "12 15 01 13 15 00 15 02 12 15 03 11 1F";
    let kept = |numbers: &str, answers: &str| Ok(format!("04 {numbers} {answers}").replace(' ', ""));
    assert_eq!(reported(table, "-"), kept("04000c 030009 020006 010003", ""));
    assert_eq!(reported(table, "52 01 03"), kept("030009 020006 020006 010003", "0004"));
    assert_eq!(reported(table, "52 01 01"), kept("04000c 030009 020006 010003", "0004"));
}

/// The second: the height of type 0 stays, and its length grows.
#[test]
fn another_member_as_low_as_the_one_taken() {
    let table = "131501150412150215061315031501121507121505121506111215061f";
    assert_row(&format!("keep {table} | kept 4/12 5/18 4/12 3/9 3/9 2/6 1/3 2/6"));
    assert_row(&format!("keep {table} | member 2 6 -> ok 8 | kept 4/15 3/12 2/6 3/9 3/9 2/6 1/3 2/6"));
}

/// A member as low as the lowest moves nothing: the earliest of equals is taken.
#[test]
fn the_earliest_of_equals() {
    let table = "1315011500121502111215021502";
    assert_row(&format!("keep {table}1f | member 0 3 -> ok 4 | kept 3/9 2/6 1/3 2/9"));
    assert_row(&format!("keep {table}1f | member 0 2 -> ok 4 | kept 2/6 2/6 1/3 2/9"));
}

/// A type may name itself, and types that come later can't be named.
#[test]
fn types_that_name_themselves() {
    assert_row(
        "keep 111f | type 1402 -> refused 4 1 0 | type 1401 -> ok 2 | type 171502 -> ok 3 | \
         type 1315031500 -> ok 4 | type 121504 -> refused 6 1 0 | type 13150415041500 -> refused 5 1 0 | \
         kept 1/3 1/3 1/3 2/6",
    );
}

/// A refused operation leaves the table as it was, and the next one goes on from
/// there.
#[test]
fn refused_operations_change_nothing() {
    assert_row(
        "keep 1315011502121502111f | member 0 1 -> refused 5 1 0 | member 2 0 -> refused 19 1 0 | \
         type 121504 -> refused 4 1 0 | type 121503 -> refused 6 1 0 | member 0 0 -> ok 3 | \
         member 0 0 -> refused 5 1 0 | kept 2/6 2/6 1/3",
    );
}

/// A choice of two has room for 14 members more.
#[test]
fn sixteen_members() {
    let others = MOST_MEMBERS as u8 + 1;
    for code in [0x13, 0x17] {
        let table = [vec![code, 0x15, 1, 0x15, 2], vec![0x11; others as usize], vec![0x1F]].concat();
        let operations: Vec<u8> = (3..=others).flat_map(|member| [0x52, 0, member]).collect();
        let report = report(&table, &operations).unwrap();
        let accepted = vec![Ok(others as u64 + 1); MOST_MEMBERS - 2];
        assert_eq!(report.answers, [accepted, vec![Err(refused(3, 1, 0))]].concat());
    }
}

#[test]
fn sixty_four_types() {
    let operations = hex("51 01 11").repeat(MOST_TYPES);
    let report = report(&hex("11 1F"), &operations).unwrap();
    let accepted = (2..=MOST_TYPES as u64).map(Ok);
    assert_eq!(report.answers, accepted.chain([Err(refused(3, 1, 0))]).collect::<Vec<_>>());
    assert_eq!(report.kept.len(), MOST_TYPES);
}

/// 16 to the power of 4 empty elements are held at 60,001 bytes; a member that
/// ends the choice above them brings its length down.
#[test]
fn a_held_length_comes_down() {
    let sequences: String = (2..6).map(|next| format!("12{}", format!("15{next:02x}").repeat(16))).collect();
    let line = format!("keep 1315011500{sequences}111f");
    assert_row(&format!("{line} | kept 6/60001 5/60001 4/13107 3/819 2/51 1/3"));
    assert_row(&format!("{line} | member 0 5 -> ok 6 | kept 2/6 5/60001 4/13107 3/819 2/51 1/3"));
}

// Documents of operations.

#[test]
fn operations_are_read() {
    let operation = |bytes: &str| read_operations(&hex(bytes));
    assert_eq!(operation("-"), Ok(Vec::new()));
    assert_eq!(operation("51 00"), Ok(vec![Operation::AppendType(Vec::new())]));
    assert_eq!(operation("51 02 14 00"), Ok(vec![Operation::AppendType(hex("14 00"))]));
    // The bytes of a type may be anything, as those of another operation.
    let any = vec![Operation::AppendType(hex("52 01")), Operation::AppendMember { extended: 3, member: 255 }];
    assert_eq!(operation("51 02 52 01 52 03 FF"), Ok(any));
    let longest = [hex("51 FF"), vec![0x51; 255]].concat();
    assert_eq!(read_operations(&longest), Ok(vec![Operation::AppendType(vec![0x51; 255])]));
}

#[test]
fn operations_that_cannot_be_read() {
    for bytes in ["50", "53", "00", "51", "51 01", "51 03 11 11", "52", "52 00", "11 1F"] {
        assert_eq!(read_operations(&hex(bytes)), Err(0), "{bytes}");
        assert_eq!(reported("11 1F", &format!("52 00 00 {bytes}")), Err(refused(2, 11, 3)), "{bytes}");
    }
    // Nothing is reported of the operations before it.
    assert_eq!(reported("11 1F", "51 01 10 51 01 10 51 01"), Err(refused(2, 11, 6)));
}

/// The table's refusals come first, then those of the operations, then 14.
#[test]
fn the_order_of_refusals() {
    let long = vec![0x52; MOST_BYTES + 1];
    let extended = |table: &str, operations: &[u8]| extend_table(&hex(table), operations, &mut []);
    assert_eq!(extend_table(&long, &long, &mut []), Err(refused(1, 1, 0)));
    assert_eq!(extended("12 15 00 1F", &long), Err(refused(6, 1, 0)));
    assert_eq!(extended("13 15 01 15 01 11 1F", &long), Err(refused(5, 1, 3)));
    assert_eq!(extended("11 1F", &long), Err(refused(1, 11, 0)));
    assert_eq!(extended("11 1F", &long[1..]), Err(refused(14, 5, 0)));
    assert_eq!(extended("11 1F", &long[2..]), Err(refused(2, 11, 59_997)));
    assert_eq!(extended("11 1F", &[]), Err(refused(14, 5, 0)));
}

/// The report is written at the start; every later byte stays.
#[test]
fn outputs_of_some_lengths() {
    let [table, operations] = ["13 15 01 15 02 11 11 1F", "52 00 00 51 00"].map(hex);
    let written = hex("03 02 00 06 01 00 03 01 00 03 00 03 02 00");
    for length in 0..20 {
        let mut output = vec![0x95; length];
        let answer = extend_table(&table, &operations, &mut output);
        match length < written.len() {
            true => assert_eq!((answer, output), (Err(refused(14, 5, 0)), vec![0x95; length])),
            false => {
                assert_eq!(answer, Ok(written.len() as u64));
                assert_eq!(output, [&written[..], &vec![0x95; length - written.len()]].concat());
            }
        }
    }
}

/// 60,000 bytes are 30,000 types of no bytes, whose report is longer than a
/// document may be.
#[test]
fn the_most_operations() {
    let mut output = vec![0; MOST_REPORT];
    let operations = hex("51 00").repeat(MOST_BYTES / 2);
    let table = [vec![0x11; MOST_TYPES], vec![0x1F]].concat();
    assert_eq!(extend_table(&table, &operations, &mut output), Ok(60_193));
    assert_eq!(output[193..], [2, 0].repeat(MOST_BYTES / 2));
}

/// A vector of the list of readings for each refusal of a type by its form.
#[test]
fn bytes_that_are_not_one_type() {
    let wrong = "- 1f 111f 1111 1500 12 13 131500 17 14 1215 12150000 140000 14001500 101500 16 18 00 ff";
    for commands in wrong.split(' ') {
        let (row, _) = parse_line(&format!("keep 111f | type {commands} -> ok 2 | kept 1/3")).unwrap();
        assert_eq!(row.run().unwrap().answers, [Err(refused(2, 1, 0))], "{commands}");
    }
}
