//! The wrapper states what the C header states: the header's test program prints the stored lines, and so does the
//! wrapper here. The refusals' words are those of the table in docs/REFUSALS.md, and of documents 01 and 02 as
//! docs/TRACE.md has their sentences.

use engine::{journal, Awaited, Letter, LetterKind, Previewed, Record, Refusal, Settled, Setup, Step, World};
use engine::{GROUPS, MESSAGES, PAIRS, PROCESSES, SETTLE_ALL, WORDS};
use std::fs;
use std::path::Path;

fn read(path: &str) -> String {
    let root = Path::new(env!("CARGO_MANIFEST_DIR")).join("../..");
    fs::read_to_string(root.join(path)).expect(path)
}

fn version() -> String {
    let archive = engine::raw::version();
    let text = format!("{}.{}.{}", archive / 1_000_000, archive / 1_000 % 1_000, archive % 1_000);
    format!("version: {}", if text == engine::VERSION { "that of the archive" } else { "wrong" })
}

fn sizes() -> Vec<String> {
    vec![
        format!("sizes: {PROCESSES} processes, {GROUPS} groups, {MESSAGES} messages, {WORDS} words"),
        format!(
            "journal: {} bytes, {} records of {} bytes",
            journal::BYTES,
            journal::RECORDS,
            Record::default().len()
        ),
        "blocks: as many as the bytes and the records".to_string(),
        format!("a whole settle: {SETTLE_ALL} arrivals"),
        format!("at once: {PAIRS} pairs"),
    ]
}

fn records() -> Result<Vec<String>, Refusal> {
    let line = |what: &str, record: Record| {
        let bytes: String = record.iter().map(|byte| format!(" {byte:02x}")).collect();
        format!("{what}:{bytes}")
    };
    let most = [0, 1, 2, 3, 4, 5, 6, 7, 7, 6, 5, 4, 3, 2, 1, 0];
    let refused = |groups: &[u8]| Setup::new(groups).unwrap_err().number();
    Ok(vec![
        line("setup 0 1 2", Setup::new(&[0, 1, 2])?.record()),
        line("setup 0 to 7 to 0", Setup::new(&most)?.record()),
        format!("setup 0 8: {}; setup of 17: {}", refused(&[0, 8]), refused(&[0; 17])),
        line("multicast 15 to 0 7", Step::multicast(15, &[0, 7])?.record()),
        line("multicast 15 to 0 7 order 1017", Step::multicast_with_order(15, &[0, 7], 1_017)?.record()),
        line("multicast 15 to 0 7 order 65535", Step::multicast_with_order(15, &[0, 7], 65_535)?.record()),
        line("arrival first 63 from 1 to 2", Step::arrival(LetterKind::First, 63, 1, 2).record()),
        line("arrival relay 3 from 4 to 5", Step::arrival(LetterKind::Relay, 3, 4, 5).record()),
        line("loss ok 6 from 7 to 8", Step::loss(LetterKind::Ok, 6, 7, 8).record()),
        line("trust 9 in 0 9 15", Step::trust(9, &[0, 9, 15])?.record()),
        line("crash 10", Step::crash(10).record()),
    ])
}

fn refusals() -> Vec<String> {
    let lines = |refusal: &Refusal| [refusal.to_string(), format!("caused by {}", refusal.text())];
    Refusal::ALL.iter().flat_map(lines).collect()
}

/// A letter that would be answered, and then a trust step that would let in two messages.
fn previews(world: &World) -> Result<Vec<String>, Refusal> {
    let line = |what: &str, then: &World, adds: Previewed| {
        let (fifo, causal, letters) = (adds.fifo, adds.causal, then.letters().len());
        format!("preview of {what}: refusal 0, {fifo} FIFO, {causal} causal, {letters} letters")
    };
    let (shown, first) = world.preview(Step::arrival(LetterKind::First, 0, 0, 1))?;
    let (after, second) = shown.preview(Step::trust(1, &[])?)?;
    Ok(vec![
        line("arrival first 0 from 0 to 1", &shown, first),
        line("trust 1 in none, after it", &after, second),
    ])
}

fn world() -> Result<Vec<String>, Refusal> {
    let mut world = World::new(&[0, 1, 1])?;
    world.step(Step::multicast(0, &[1])?)?;
    world.step(Step::multicast_with_order(1, &[0, 1], 1_017)?)?;
    world.step(Step::multicast_with_order(0, &[1], 65_535)?)?;
    world.step(Step::arrival(LetterKind::First, 2, 0, 1))?;
    world.step(Step::trust(1, &[0, 1])?)?;
    world.step(Step::crash(2))?;
    let mut lines = vec!["refused: 0".to_string()];
    lines.push(format!("world: {} processes, {} messages", world.processes(), world.messages()));
    lines.extend((0..=16).filter_map(|p| {
        let (group, trusted) = (world.group(p)?, world.trust_mask(p)?);
        let up = if world.is_up(p) { "up" } else { "down" };
        Some(format!("process {p}: group {group}, trusts {trusted:04x}, {up}"))
    }));
    lines.extend((0..=64).filter_map(|m| {
        let (sender, groups, order) = (world.sender(m)?, world.group_mask(m)?, world.order(m).ok()?);
        Some(format!("message {m}: sender {sender}, groups {groups:02x}, order {order}"))
    }));
    let refused = (0..=64).filter(|m| world.order(*m) == Err(Refusal::Message)).count();
    lines.push(format!("no such message: {refused}"));
    lines.extend(previews(&world)?);
    lines.extend(world.letters().iter().map(|l| {
        let kind = l.kind.number();
        format!("in flight: message {}, kind {kind}, from {}, to {}", l.message, l.from, l.to)
    }));
    Ok(lines)
}

/// Which of three messages came first.
fn precedes(what: &str, world: &World) -> Result<String, Refusal> {
    let pairs = [[0, 1], [0, 2], [1, 2], [1, 0], [2, 0], [2, 1], [0, 0]];
    let precedence = world.precedes(&pairs)?;
    let answers = pairs.iter().zip(&precedence.answers);
    let answers =
        answers.map(|(pair, &yes)| format!(" {} {} {},", pair[0], pair[1], if yes { "yes" } else { "no" }));
    Ok(format!("precedes, {what}:{} {} different", answers.collect::<String>(), precedence.different))
}

/// A message that waits; then edited words, in which nothing is awaited, or a process alone. And which came first in
/// these worlds.
fn waiting() -> Result<Vec<String>, Refusal> {
    let mut world = World::new(&[0, 1, 2])?;
    world.step(Step::multicast(0, &[2])?)?;
    world.step(Step::multicast(0, &[1])?)?;
    world.step(Step::arrival(LetterKind::First, 1, 0, 1))?;
    world.step(Step::arrival(LetterKind::Ok, 1, 1, 1))?;
    world.step(Step::multicast(1, &[2])?)?;
    world.step(Step::arrival(LetterKind::First, 2, 1, 2))?;
    world.step(Step::arrival(LetterKind::Ok, 2, 2, 2))?;
    let mut lines = vec!["refused: 0".to_string()];
    let edited = |place: usize, word: u16| {
        let mut words = world.words().to_vec();
        words[place] = word;
        World::from_words(words)
    };
    let (del, counter) = (3 + 2 * 429 + 154, 6_867 + 2 + 2 * 16);
    let edits = [("as it is", 0, 3), ("del[0] 1", del, 1), ("C[2][0] of message 0 2", counter, 2)];
    for (what, place, word) in edits {
        let answer = match edited(place, word)?.awaited(2, 2)? {
            Awaited::Nothing => "nothing".to_string(),
            Awaited::Message { of, message } => format!("message {message} of process {of}"),
            Awaited::Process { of } => format!("process {of}"),
        };
        lines.push(format!("awaited at process 2 by message 2, {what}: {answer}"));
    }
    for (what, place, word) in [edits[0], edits[2]] {
        lines.push(precedes(what, &edited(place, word)?)?);
    }
    Ok(lines)
}

/// The first letter to the first process, of those behind this one and this one at the end, that is up and has one.
fn next_in_turn(world: &World, last: u8) -> Option<Letter> {
    let n = world.processes() as u8;
    let letters = world.letters();
    let mut turns = (1..=n).map(|i| (last + i) % n).filter(|&to| world.is_up(to));
    turns.find_map(|to| letters.iter().find(|letter| letter.to == to).copied())
}

/// One of the settles.
type Settle = fn(&mut World, u32) -> Settled;

/// The office sends four messages to two mixers and a fifth to a silo store, and crashes; then the settles, and the
/// arrivals of the fair one as steps.
fn settles() -> Result<Vec<String>, Refusal> {
    let mut world = World::new(&[0, 1, 1, 2])?;
    for message in 0..5 {
        world.step(Step::multicast(0, &[if message < 4 { 1 } else { 2 }])?)?;
    }
    world.step(Step::crash(0))?;
    let mut lines = vec!["refused: 0".to_string()];
    let calls: [(&str, Settle); 2] = [("settle", World::settle), ("fair settle", World::settle_fair)];
    let mut after = world.clone();
    for (what, settle) in calls {
        for budget in [0, 8, SETTLE_ALL] {
            after = world.clone();
            let Settled { arrivals, done } = settle(&mut after, budget);
            let done = if done { "done" } else { "stopped" };
            let delivered = (0..4).map(|p| format!(" {}", after.causal_log(p).map_or(0, <[u16]>::len)));
            let delivered: String = delivered.collect();
            lines.push(format!(
                "{what} {budget}: refusal 0, {arrivals} arrivals, {done}, causally delivered{delivered}"
            ));
        }
    }
    let (mut last, mut steps) = (world.processes() as u8 - 1, 0);
    while let Some(letter) = next_in_turn(&world, last) {
        world.step(Step::Arrival(letter))?;
        (last, steps) = (letter.to, steps + 1);
    }
    let same = if world == after { "the same words" } else { "other words" };
    lines.push(format!("fair settle as {steps} steps: refused 0, {same}"));
    Ok(lines)
}

#[test]
fn the_wrapper_states_what_the_header_states() {
    let mut lines = vec![version()];
    lines.extend(sizes());
    lines.extend(refusals());
    lines.extend(records().unwrap());
    lines.extend(world().unwrap());
    lines.extend(waiting().unwrap());
    lines.extend(settles().unwrap());
    assert_eq!(lines.join("\n") + "\n", read("tests/header/header.out"));
}

/// The constants of the header, as `WT_REFUSAL_NAME = NUMBER` with the words in a comment behind.
#[test]
fn the_constants_of_the_header_have_the_same_names_and_words() {
    let header = read("include/wardrobeteal.h");
    let constants: Vec<(&str, &str)> = header
        .lines()
        .filter_map(|line| line.trim().strip_prefix("WT_REFUSAL_")?.split_once(" = "))
        .collect();
    assert_eq!(constants.len(), Refusal::ALL.len());
    for ((name, rest), refusal) in constants.iter().zip(Refusal::ALL) {
        assert_eq!(name.replace('_', "").to_lowercase(), format!("{refusal:?}").to_lowercase());
        let (number, comment) = rest.split_once("/* ").expect("words");
        assert_eq!(number.trim().trim_end_matches(','), refusal.number().to_string());
        let (_, words) = refusal.text().split_once(": ").expect("who, then how");
        assert_eq!(comment.trim_end_matches(" */"), words);
    }
}

#[test]
fn refusals_are_numbered_from_1() {
    for (i, refusal) in Refusal::ALL.iter().enumerate() {
        assert_eq!(refusal.number() as usize, i + 1);
    }
}

/// The rows of docs/REFUSALS.md: `| number | name | sentence | who: how | what to do |`.
#[test]
fn refusals_have_the_words_of_the_table() {
    let table = read("docs/REFUSALS.md");
    let rows: Vec<Vec<&str>> = table
        .lines()
        .filter(|line| line.starts_with(|c: char| c == '|') && line.contains("`WT_REFUSAL_"))
        .map(|line| line.trim_matches('|').split('|').map(str::trim).collect())
        .collect();
    assert_eq!(rows.len(), Refusal::ALL.len());
    for (row, refusal) in rows.iter().zip(Refusal::ALL) {
        let name = row[1].trim_matches('`').trim_start_matches("WT_REFUSAL_").replace('_', "").to_lowercase();
        assert_eq!(row[0], refusal.number().to_string());
        assert_eq!(name, format!("{refusal:?}").to_lowercase());
        assert_eq!(row[2], refusal.sentence());
        assert_eq!(row[3], refusal.text());
        assert!(!row[4].is_empty(), "{row:?}");
    }
}

#[test]
fn refusals_have_the_words_of_document_01() {
    let trace = read("docs/TRACE.md");
    for refusal in Refusal::ALL.into_iter().filter(|refusal| refusal.number() <= 17) {
        let (who, words) = refusal.text().split_once(": ").expect("who, then how");
        let sentence = trace
            .lines()
            .filter_map(|line| line.strip_prefix("| ")?.split(" | ").next()?.split_once(": "))
            .find(|(start, _)| start.to_lowercase() == who)
            .map(|(_, rest)| rest.trim_end_matches('.'))
            .unwrap_or_else(|| panic!("no sentence of {who}"));
        let item = format!("{} {words}", refusal.number());
        assert!(sentence.split("; ").any(|part| part == item), "{item}");
    }
}

/// The sentence of document 02 has the words of the refusal between these two parts.
fn has_the_words(refusal: Refusal, before: &str, behind: &str) {
    let (_, words) = refusal.text().split_once(": ").expect("who, then how");
    let sentence = format!("| {before} {words}{behind} |");
    assert!(read("docs/TRACE.md").lines().any(|line| line.starts_with(&sentence)), "{sentence}");
}

#[test]
fn refusal_18_has_the_words_of_document_02() {
    has_the_words(Refusal::NotWaiting, "It refuses with 18, after 7, a", ".");
}

#[test]
fn refusal_19_has_the_words_of_document_02() {
    let behind = "; after 19, a pair naming no message gets 7.";
    has_the_words(Refusal::PairsLength, "It refuses with 19, after 2, an", behind);
}

#[test]
fn a_number_without_a_place_is_refused() {
    assert_eq!(Step::multicast(0, &[8]), Err(Refusal::GroupMask));
    assert_eq!(Step::multicast_with_order(0, &[8], 1_017), Err(Refusal::GroupMask));
    assert_eq!(Step::trust(0, &[16]), Err(Refusal::TrustMask));
    assert_eq!(Setup::new(&[]), Err(Refusal::Setup));
    assert_eq!(World::new(&[0, 2]), Err(Refusal::Setup));
}

#[test]
fn kept_words_are_tested() {
    let world = World::new(&[0, 1]).unwrap();
    let mut words = world.words().to_vec();
    assert_eq!(World::from_words(words.clone()), Ok(world));
    words[0] = 17;
    assert_eq!(World::from_words(words.clone()), Err(Refusal::NotSound));
    words.pop();
    assert_eq!(World::from_words(words), Err(Refusal::WorldLength));
}
