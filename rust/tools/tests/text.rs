//! The text form of a journal: text and journal are each the other's inverse, and a bad line is refused with its number.

mod support;

use engine::{journal, Record};
use reference::random::Random;
use support::{any_records, stored_journals};
use tools::text::{bytes_to_records, from_records, to_records, Fault};

const RUNS: u64 = 3_000;

#[test]
fn a_journal_comes_back_from_its_text() {
    for index in 0..RUNS {
        let mut random = Random::new(1, index);
        let records = any_records(&mut random);
        let bytes = journal::from_records(&records).unwrap();
        let text = from_records(&journal::to_records(&bytes).unwrap());
        assert_eq!(text.lines().count(), records.len());
        let back = to_records(&text).unwrap();
        assert_eq!(back, records, "{text}");
        assert_eq!(journal::from_records(&back).unwrap(), bytes);
        assert_eq!(from_records(&back), text);
    }
}

/// A list of numbers, some below the limit, in the text's form.
fn any_list(random: &mut Random, limit: usize) -> String {
    let numbers: Vec<String> = (0..limit).filter(|_| random.one_in(3)).map(|i| i.to_string()).collect();
    if numbers.is_empty() {
        "none".to_string()
    } else {
        numbers.join(" ")
    }
}

/// What follows the groups of a multicast: nothing, or an order number.
fn any_order(random: &mut Random) -> String {
    match random.below(4) {
        0 => " order 65535".to_string(),
        1 => format!(" order {}", random.between(1, 300)),
        2 => format!(" order {}", random.between(1, 65_535)),
        _ => String::new(),
    }
}

/// A line as the text's rules allow it, made without the tools.
fn any_line(random: &mut Random, first: bool) -> String {
    let number = |random: &mut Random| if random.one_in(2) { random.below(17) } else { random.below(256) };
    let kind = random.pick(&["first", "relay", "ok"]);
    let (a, b, c) = (number(random), number(random), number(random));
    if first {
        let groups: Vec<String> = (0..random.between(1, 16)).map(|_| random.below(8).to_string()).collect();
        return format!("setup groups {}", groups.join(" "));
    }
    match random.below(6) {
        0 => format!("multicast {a} to {}{}", any_list(random, 8), any_order(random)),
        1 => format!("arrival {kind} {a} from {b} to {c}"),
        2 => format!("loss {kind} {a} from {b} to {c}"),
        3 => format!("trust {a} in {}", any_list(random, 16)),
        4 => format!("crash {a}"),
        _ => format!("bytes {:02x} {a:02x} {b:02x} {c:02x} 00 00 00 00", random.between(6, 255)),
    }
}

fn any_text(random: &mut Random) -> String {
    let lines = random.between(1, 80);
    (0..lines).map(|i| any_line(random, i == 0) + "\n").collect()
}

#[test]
fn text_comes_back_from_its_journal() {
    for index in 0..RUNS {
        let text = any_text(&mut Random::new(2, index));
        let records = to_records(&text).unwrap();
        let bytes = journal::from_records(&records).unwrap();
        assert_eq!(from_records(&journal::to_records(&bytes).unwrap()), text);
    }
}

/// What is left of a text without comments, needless spaces and empty lines.
fn plain(text: &str) -> String {
    let words = |line: &str| line.split('#').next().unwrap().split_whitespace().collect::<Vec<_>>().join(" ");
    text.lines().map(words).filter(|line| !line.is_empty()).map(|line| line + "\n").collect()
}

#[test]
fn comments_spaces_and_empty_lines_are_left_out() {
    let text = "# known run 1\n\nsetup   groups 0\t# one process\r\n  multicast 0 to 0#x\n\n   \ncrash 0";
    let records = to_records(text).unwrap();
    assert_eq!(from_records(&records), "setup groups 0\nmulticast 0 to 0\ncrash 0\n");
    assert_eq!(from_records(&records), plain(text));
}

/// Whatever text is taken is what its journal prints, but for comments, spaces and empty lines.
#[test]
fn damaged_text_is_refused_or_comes_back() {
    let (mut taken, mut refused) = (0, 0);
    for index in 0..10 * RUNS {
        let mut random = Random::new(3, index);
        let mut bytes = any_text(&mut random).into_bytes();
        for _ in 0..random.between(1, 3) {
            let at = random.below(bytes.len());
            match random.below(4) {
                0 => bytes[at] = random.pick(b"0123456789 \n#abcdefgx-+"),
                1 => bytes.insert(at, random.pick(b"0123456789 \n#abcdefgx-+")),
                2 => drop(bytes.remove(at)),
                _ => bytes[at] = random.byte(),
            }
        }
        match bytes_to_records(&bytes) {
            Ok(records) => {
                let text = String::from_utf8(bytes).expect("text was taken");
                assert_eq!(from_records(&records), plain(&text));
                taken += 1;
            }
            Err(fault) => {
                let lines = bytes.iter().filter(|&&byte| byte == b'\n').count() + 1;
                assert!((1..=lines).contains(&fault.line), "{fault}");
                refused += 1;
            }
        }
    }
    assert!(taken > 1_000 && refused > 1_000, "{taken} taken, {refused} refused");
}

/// Texts, the line that is refused, and why.
const BAD_TEXTS: &[(&str, usize, &str)] = &[
    ("", 1, "no record up to here; a journal has at least a setup"),
    ("\n# nothing\n", 2, "no record up to here; a journal has at least a setup"),
    ("crash 0\n", 1, "the first record is a setup, not crash"),
    ("\nsetup 0\n", 2, "'groups' should stand where '0' stands"),
    ("setup groups\n", 1, "the line ends where a group should follow"),
    ("setup groups none\n", 1, "1 to 16 processes, not 0"),
    ("setup groups 0 0 0 0 0 0 0 0 0 0 0 0 0 0 0 0 0\n", 1, "1 to 16 processes, not 17"),
    ("setup groups 0 8\n", 1, "a group is a number from 0 to 7, not '8'"),
    ("bytes 00 01 00 00 00 00 00 00\n", 1, "these bytes are written 'setup groups 0'"),
];

/// Lines that are refused after a setup, and why.
const BAD_LINES: &[(&str, &str)] = &[
    ("setup groups 0", "a setup is the first record only"),
    (
        "Crash 0",
        "a line begins with setup, multicast, arrival, loss, trust, crash or bytes, not with 'Crash'",
    ),
    ("crash", "the line ends where a process should follow"),
    ("crash 256", "a process is a number from 0 to 255, not '256'"),
    ("crash 00", "a process is a number from 0 to 255, not '00'"),
    ("crash +1", "a process is a number from 0 to 255, not '+1'"),
    ("crash 99999999999999999999", "a process is a number from 0 to 255, not '99999999999999999999'"),
    ("crash 1 2", "the line should end before '2'"),
    ("multicast 0 2", "'to' should stand where '2' stands"),
    ("multicast 0 to 2 1", "numbers rise, but 2 stands before 1"),
    ("multicast 0 to 1 1", "numbers rise, but 1 stands before 1"),
    ("multicast 0 to none 1", "the line should end before '1'"),
    ("multicast 0 to order 5", "a group is a number from 0 to 7, not 'order'"),
    ("multicast 0 to 2 order", "the line ends where an order should follow"),
    ("multicast 0 to 2 order 0", "an order is a number from 1 to 65535, not '0'"),
    ("multicast 0 to 2 order 65536", "an order is a number from 1 to 65535, not '65536'"),
    ("multicast 0 to 2 order 01017", "an order is a number from 1 to 65535, not '01017'"),
    ("multicast 0 to 2 order none", "an order is a number from 1 to 65535, not 'none'"),
    ("multicast 0 to 2 order 1 2", "the line should end before '2'"),
    ("multicast 0 to 2 order 1 order 1", "the line should end before 'order'"),
    ("multicast 0 order 5 to 2", "'to' should stand where 'order' stands"),
    ("multicast 0 to 2 Order 5", "the line should end before 'Order'"),
    ("trust 0 in 1 order 5", "the line should end before 'order'"),
    ("trust 0 in 16", "a process is a number from 0 to 15, not '16'"),
    ("arrival third 0 from 0 to 1", "a letter is first, relay or ok, not 'third'"),
    ("loss ok 0 from 0", "the line ends where 'to' should follow"),
    ("bytes 09 00", "the line ends where the next of eight bytes should follow"),
    ("bytes 0A 00 00 00 00 00 00 00", "a byte is two digits of 0 to 9 and a to f, not '0A'"),
    ("bytes 01 00 04 00 00 00 00 00", "these bytes are written 'multicast 0 to 2'"),
    ("bytes 01 00 04 f9 03 00 00 00", "these bytes are written 'multicast 0 to 2 order 1017'"),
    ("bytes 09 00 00 00 00 00 00 00 00", "the line should end before '00'"),
];

#[test]
fn bad_lines_are_refused_with_number_and_reason() {
    let fault = |line: usize, reason: &str| Err(Fault { line, reason: reason.to_string() });
    for (text, line, reason) in BAD_TEXTS {
        assert_eq!(to_records(text), fault(*line, reason), "{text}");
    }
    for (bad, reason) in BAD_LINES {
        let text = format!("setup groups 0 1\n\ncrash 0\n{bad}\ncrash x\n");
        assert_eq!(to_records(&text), fault(4, reason), "{text}");
    }
}

/// Lines with order numbers, and the bytes of each: the low byte of a number comes first.
#[test]
fn an_order_number_is_bytes_3_and_4() {
    let lines = [
        ("multicast 0 to 2 order 1017", [1, 0, 4, 0xF9, 3, 0, 0, 0]),
        ("multicast 1 to 0 1 order 1", [1, 1, 3, 1, 0, 0, 0, 0]),
        ("multicast 255 to none order 256", [1, 255, 0, 0, 1, 0, 0, 0]),
        ("multicast 0 to 2 order 65535", [1, 0, 4, 255, 255, 0, 0, 0]),
        ("bytes 01 00 04 f9 03 01 00 00", [1, 0, 4, 0xF9, 3, 1, 0, 0]),
    ];
    for (line, bytes) in lines {
        let text = format!("setup groups 0\n{line}\n");
        let records = to_records(&text).unwrap();
        assert_eq!(records[1], bytes, "{line}");
        assert_eq!(from_records(&records), text);
    }
}

#[test]
fn bytes_that_are_no_text_are_refused_with_their_line() {
    let fault = bytes_to_records(b"setup groups 0\ncrash 0\n\xFFcrash 0\n").unwrap_err();
    assert_eq!(fault.to_string(), "line 3: not text (UTF-8)");
}

#[test]
fn a_journal_has_at_most_8064_records() {
    let most = "setup groups 0\n".to_string() + &"crash 0\n".repeat(8_063);
    assert_eq!(to_records(&most).unwrap().len(), 8_064);
    let fault = to_records(&(most + "\ncrash 0\n")).unwrap_err();
    assert_eq!(fault.to_string(), "line 8066: over 8,064 records, which is the most that a journal has");
}

#[test]
fn stored_journals_have_their_stored_texts() {
    let mut texts = 0;
    for stored in stored_journals() {
        let records: Vec<Record> = match journal::to_records(&stored.journal) {
            Ok(records) => records,
            Err(_) => continue,
        };
        let text = from_records(&records);
        assert_eq!(to_records(&text).unwrap(), records, "{}", stored.name);
        if let Some(expected) = stored.text {
            assert_eq!(text, expected, "{}", stored.name);
            texts += 1;
        }
    }
    assert!(texts >= 14, "{texts} texts");
}
