//! Lists of calls, played on the engine; and that they are still what the documents
//! say and what the Rust answers, where that is at hand.

use beside::document;
use beside::random::Random;
use beside::recorded::{play, read, Row};
use std::process::Command;

const ANSWERS: &str = include_str!("../lists/answers.txt");
const DOCUMENT: &str = include_str!("../lists/document.txt");

#[test]
fn the_engine_answers_as_told() {
    for (name, list, wanted) in
        [("answers.txt", ANSWERS, (360, 940)), ("document.txt", DOCUMENT, (33, 246))]
    {
        let (cases, calls) = play(&read(list)).unwrap_or_else(|told| panic!("{name}, {told}"));
        println!("{name}: {cases} cases, {calls} calls, all answered as told");
        assert_eq!((cases, calls), wanted, "{name} has other cases or calls than it should");
    }
}

/// The rows of each case of a list.
fn cases(rows: &[Row]) -> Vec<&[Row]> {
    let mut at: Vec<usize> = (0..rows.len()).filter(|n| rows[*n][0] == 0x01).collect();
    at.push(rows.len());
    at.windows(2).map(|case| &rows[case[0]..case[1]]).collect()
}

/// A list in which one bit of what it tells is another is found out.
#[test]
fn a_wrong_list_is_found_out() {
    let mut random = Random::new(13);
    let mut changed = 0;
    for list in [ANSWERS, DOCUMENT] {
        let rows = read(list);
        let cases = cases(&rows);
        for _ in 0..150 {
            let mut case = random.pick(&cases).to_vec();
            let told: Vec<usize> = (0..case.len()).filter(|n| case[*n][0] == 0x20).collect();
            if told.is_empty() {
                continue;
            }
            let byte = 8 + random.below(8) as usize;
            case[random.pick(&told)][byte] ^= 1 << random.below(8);
            assert!(play(&case).is_err(), "a wrong row passes: {case:02x?}");
            changed += 1;
        }
    }
    println!("wrong lists: {changed}, all found out");
    assert!(changed > 200, "only {changed} lists were changed");
}

#[test]
fn the_document_says_as_told() {
    assert!(document::text() == DOCUMENT, "the list is not what `document` writes");
}

#[test]
fn the_rust_answers_as_told() {
    if !beside::oracle_at_hand("the Rust's answers made anew") {
        return;
    }
    let made = record().output().expect("the program that records runs");
    assert!(made.status.success(), "{}", String::from_utf8_lossy(&made.stderr));
    assert!(made.stdout == ANSWERS.as_bytes(), "the list is not what `record` writes");
}

/// The recorder, through the emulator where this test runs in one.
fn record() -> Command {
    let program = env!("CARGO_BIN_EXE_record");
    match beside::runner() {
        None => Command::new(program),
        Some((runner, words)) => {
            let mut command = Command::new(runner);
            command.args(words).arg(program);
            command
        }
    }
}
