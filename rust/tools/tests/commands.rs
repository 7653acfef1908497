//! The commands as a person runs them: standard input, standard output, reasons on standard error, exit status.

mod support;

use std::fs;
use std::io::Write;
use std::process::{Command, Output, Stdio};
use support::root;

const JOURNAL_TEXT: &str = env!("CARGO_BIN_EXE_journal-text");
const SPACE_TIME: &str = env!("CARGO_BIN_EXE_space-time");
const AWAITED: &str = env!("CARGO_BIN_EXE_awaited");

fn run(program: &str, arguments: &[&str], input: &[u8]) -> Output {
    let mut child = Command::new(program)
        .args(arguments)
        .stdin(Stdio::piped())
        .stdout(Stdio::piped())
        .stderr(Stdio::piped())
        .spawn()
        .expect("the program starts");
    // A program that wants no input may end before it is written.
    let _ = child.stdin.take().expect("its input").write_all(input);
    child.wait_with_output().expect("the program ends")
}

fn stored(path: &str) -> Vec<u8> {
    fs::read(root().join(path)).expect(path)
}

fn refused(output: Output, status: i32, reason: &str) {
    assert_eq!(output.status.code(), Some(status));
    assert!(output.stdout.is_empty());
    assert_eq!(String::from_utf8_lossy(&output.stderr), reason);
}

#[test]
fn text_and_journal_are_each_made_from_the_other() {
    for name in ["known-1", "known-3", "known-4", "every-step-refused", "orders"] {
        let journal = stored(&format!("tests/journals/{name}.journal"));
        let text = stored(&format!("tests/journals/{name}.text"));
        assert_eq!(run(JOURNAL_TEXT, &["to-text"], &journal).stdout, text);
        assert_eq!(run(JOURNAL_TEXT, &["to-journal"], &text).stdout, journal);
    }
}

#[test]
fn what_is_refused_is_told() {
    let output = run(JOURNAL_TEXT, &["to-journal"], b"setup groups 0\nmulticast 0 to 9\n");
    refused(output, 1, "journal-text: line 2: a group is a number from 0 to 7, not '9'\n");
    let wrong = stored("tests/journals/wrong-form.journal");
    let reason =
        "refusal 15: this block's number, its count of records or a byte that must be zero is wrong\n";
    refused(run(JOURNAL_TEXT, &["to-text"], &wrong), 1, &format!("journal-text: {reason}"));
    refused(run(SPACE_TIME, &[], &wrong), 1, &format!("space-time: {reason}"));
    refused(run(AWAITED, &[], &wrong), 1, &format!("awaited: {reason}"));
}

#[test]
fn wrong_arguments_show_the_usage() {
    let wrong: [(&str, &[&str]); 6] = [
        (JOURNAL_TEXT, &[]),
        (JOURNAL_TEXT, &["to"]),
        (SPACE_TIME, &["--names"]),
        (SPACE_TIME, &["office", "-"]),
        (AWAITED, &["--names"]),
        (AWAITED, &["office", "-"]),
    ];
    for (program, arguments) in wrong {
        let output = run(program, arguments, b"");
        assert_eq!(output.status.code(), Some(2));
        assert!(String::from_utf8_lossy(&output.stderr).starts_with("usage: "));
    }
}

#[test]
fn wrong_names_are_told() {
    let journal = stored("tests/journals/known-3.journal");
    let longest = "123456789 123456789 1234";
    assert!(run(SPACE_TIME, &[longest, "b", "c"], &journal).status.success());
    let longer = longest.to_string() + "5";
    let wrong: [(&[&str], &str); 6] = [
        (&["office", "mixer"], "2 names for 3 processes"),
        (&["office"], "1 name for 3 processes"),
        (&["a", "b", "c", "d"], "4 names for 3 processes"),
        (&["office", "", "mixer"], "an empty name"),
        (&["office", &longer, "mixer"], "a name of 25 characters; at most 24"),
        (&["office", "a\nb", "mixer"], "a name with a control character"),
    ];
    for (names, reason) in wrong {
        refused(run(SPACE_TIME, names, &journal), 1, &format!("space-time: {reason}\n"));
        refused(run(AWAITED, names, &journal), 1, &format!("awaited: {reason}\n"));
    }
    let one_process = stored("tests/journals/known-1.journal");
    refused(run(SPACE_TIME, &["a", "b"], &one_process), 1, "space-time: 2 names for 1 process\n");
}

#[test]
fn what_is_awaited_is_printed_and_nothing_where_nothing_waits() {
    let waits = "process 2: message 2 waits for 0 of process 0, which has not arrived\n";
    let with_names = "mixer: message 2 waits for 0 of office, which has not arrived\n";
    for (name, line, named) in
        [("known-3-waiting", waits, with_names), ("known-4", waits, with_names), ("known-3", "", "")]
    {
        let journal = stored(&format!("tests/journals/{name}.journal"));
        for (names, printed) in [(&[][..], line), (&["office", "weighbridge", "mixer"][..], named)] {
            let output = run(AWAITED, names, &journal);
            assert!(output.status.success() && output.stderr.is_empty(), "{name}");
            assert_eq!(String::from_utf8_lossy(&output.stdout), printed, "{name}");
        }
    }
}

/// The pictures of the documents, made by:
/// `space-time office weighbridge mixer <tests/journals/known-3.journal >docs/pictures/known-3.svg`.
const PICTURES: [(&str, &[&str]); 3] = [
    ("known-3", &["office", "weighbridge", "mixer"]),
    ("known-4", &["office", "weighbridge", "mixer"]),
    ("words", &["office", "weighbridge", "small mixer", "large mixer"]),
];

#[test]
fn stored_pictures_are_those_of_their_journals() {
    for (name, names) in PICTURES {
        let journal = stored(&format!("tests/journals/{name}.journal"));
        let picture = stored(&format!("docs/pictures/{name}.svg"));
        let drawn = run(SPACE_TIME, names, &journal).stdout;
        assert!(drawn == picture, "docs/pictures/{name}.svg is not what space-time draws");
    }
}
