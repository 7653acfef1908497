//! The run of a journal is what the second implementation says, and its picture shows all of it.

mod support;

use engine::journal;
use reference::random::Random;
use reference::replay::replay;
use std::fs;
use support::{root, run_records, stored_journals};
use tools::names::Names;
use tools::picture::svg;
use tools::run::{End, Run, What};
use tools::text;

const RUNS: u64 = 200;

fn any_journal(index: u64) -> Vec<u8> {
    journal::from_records(&run_records(&mut Random::new(4, index), 300)).expect("a list that can be written")
}

/// The messages that the run has delivered at a process, in order.
fn delivered(run: &Run, process: u8, causal: bool) -> Vec<usize> {
    let here = run.moments.iter().filter(|moment| moment.process == process);
    here.filter_map(|moment| match moment.what {
        What::Fifo { message } if !causal => Some(message.into()),
        What::Causal { message } if causal => Some(message.into()),
        _ => None,
    })
    .collect()
}

/// The order numbers of the messages, as they were multicast; the engine gives the same.
fn orders(run: &Run) -> Vec<u16> {
    let sent = run.moments.iter().filter_map(|moment| match moment.what {
        What::Multicast { message, order, .. } => Some((message, order)),
        _ => None,
    });
    sent.map(|(message, order)| {
        assert_eq!(run.world.order(message), Ok(order));
        order
    })
    .collect()
}

fn number(run: &Run, end: fn(End) -> bool) -> usize {
    run.flights.iter().filter(|flight| end(flight.end)).count()
}

#[test]
fn a_run_is_what_the_second_implementation_says() {
    let mut waited = 0;
    for index in 0..RUNS {
        let bytes = any_journal(index);
        let run = Run::of_journal(&bytes).unwrap();
        let expected = replay(&bytes).unwrap();
        assert_eq!((run.steps, run.refused), (expected.steps as usize, expected.refused as usize));
        for (p, process) in expected.world.processes.iter().enumerate() {
            let p = p as u8;
            assert_eq!(usize::from(run.groups[usize::from(p)]), process.group);
            assert_eq!(run.world.is_up(p), process.up);
            assert_eq!(delivered(&run, p, false), process.fifo_log);
            assert_eq!(delivered(&run, p, true), process.causal_log);
            let waiting = run.waiting.iter().filter(|wait| wait.process == p).count();
            assert_eq!(waiting, process.fifo_log.len() - process.causal_log.len());
        }
        let messages = &expected.world.messages;
        assert_eq!(orders(&run), messages.iter().map(|message| message.order).collect::<Vec<_>>());
        let letters = run.world.letters();
        let letters =
            letters.iter().map(|l| (l.message.into(), l.kind.number().into(), l.from.into(), l.to.into()));
        let flight: Vec<(usize, usize, usize, usize)> =
            expected.world.flight.iter().map(|l| (l.message, l.kind as usize, l.from, l.to)).collect();
        assert_eq!(letters.collect::<Vec<_>>(), flight);
        assert_eq!(number(&run, |end| end == End::InFlight), flight.len());
        assert!(run.waiting.iter().all(|wait| !wait.for_messages.is_empty()));
        waited += run.waiting.len();
    }
    assert!(waited > 30, "{waited} messages waited");
}

#[test]
fn a_picture_shows_every_letter_delivery_and_wait() {
    for index in 0..RUNS / 4 {
        let run = Run::of_journal(&any_journal(index)).unwrap();
        let picture = svg(&run, &Names::none());
        let shown = |mark: &str| picture.matches(mark).count();
        // The legend has three arrows, and words on a wait.
        assert_eq!(shown("url(#tip"), number(&run, |end| matches!(end, End::Arrived(_))) + 3);
        assert_eq!(shown("stroke-opacity=\"0.6\""), number(&run, |end| end == End::InFlight));
        assert_eq!(shown("waits for"), run.waiting.len() + 1);
        assert_eq!(shown(">refused "), run.refused);
        assert_eq!(shown(">order "), orders(&run).iter().filter(|&&order| order != 0).count());
        let deliveries =
            run.moments.iter().filter(|m| matches!(m.what, What::Fifo { .. } | What::Causal { .. }));
        assert_eq!(shown("width=\"22.0\" height=\"20.0\""), deliveries.count() + 2);
        assert_eq!(shown(">process "), run.groups.len());
    }
}

/// Where in the picture a text stands, by its words.
fn place(picture: &str, words: &str) -> (f64, f64) {
    let (before, _) = picture.split_once(&format!(">{words}</text>")).expect(words);
    let (_, element) = before.rsplit_once("<text ").expect("its element");
    let number = |name: &str| {
        let (_, value) = element.split_once(&format!("{name}=\"")).expect(name);
        value.split('"').next().unwrap().parse().expect("a number")
    };
    (number("x"), number("y"))
}

#[test]
fn an_order_number_stands_over_its_messages_sending() {
    let journal = fs::read(root().join("tests/journals/orders.journal")).unwrap();
    let run = Run::of_journal(&journal).unwrap();
    assert_eq!(orders(&run), [1_017, 65_535, 256, 0]);
    let picture = svg(&run, &Names::none());
    for (order, groups) in [("order 1017", "to group 2"), ("order 65535", "to group 1")] {
        let ((x, y), (x_below, y_below)) = (place(&picture, order), place(&picture, groups));
        assert_eq!((x, y), (x_below, y_below - 13.0), "{order}");
        assert!(y_below < place(&picture, "process 0").1);
    }
    assert!(!picture.contains(">order 0<"));
}

#[test]
fn words_over_a_line_stand_above_what_waits_there() {
    let mut text = fs::read_to_string(root().join("tests/journals/known-3-waiting.text")).unwrap();
    text += "multicast 2 to 0 order 1018\n";
    let journal = journal::from_records(&text::to_records(&text).unwrap()).unwrap();
    let picture = svg(&Run::of_journal(&journal).unwrap(), &Names::none());
    let [order, groups, waits] =
        ["order 1018", "to group 0", "2 waits"].map(|words| place(&picture, words).1);
    assert!(order + 12.0 < groups && groups + 12.0 < waits, "{order}, {groups}, {waits}");
}

#[test]
fn every_stored_journal_is_drawn_or_refused_as_replay_refuses_it() {
    for stored in stored_journals() {
        let refusal = Run::of_journal(&stored.journal).map(|run| svg(&run, &Names::none()).len()).err();
        let expected = replay(&stored.journal).err();
        assert_eq!(refusal.map(|r| r.number()), expected.map(|r| r.number()), "{}", stored.name);
    }
}

#[test]
fn a_message_that_cannot_come_is_waited_for() {
    let journal = fs::read(root().join("tests/journals/known-4.journal")).unwrap();
    let run = Run::of_journal(&journal).unwrap();
    assert_eq!(run.waiting.len(), 1);
    let wait = &run.waiting[0];
    assert_eq!((wait.process, wait.message, &wait.for_messages[..]), (2, 2, &[0][..]));
    assert!(svg(&run, &Names::none()).contains("2 waits for 0"));
}

fn named(run: &Run, names: &[&str]) -> String {
    svg(run, &Names::new(names.iter().map(|name| name.to_string()).collect()).unwrap())
}

/// The place in the picture at which the line of process 0 begins.
fn line_start(picture: &str) -> f64 {
    let (_, label) = picture.split_once(">group 0</text>").expect("the label of process 0");
    let (_, path) = label.split_once("d=\"M").expect("its line");
    path.split(' ').next().unwrap().parse().expect("a number")
}

#[test]
fn names_label_the_lines_and_are_left_of_them() {
    let journal = fs::read(root().join("tests/journals/known-3.journal")).unwrap();
    let run = Run::of_journal(&journal).unwrap();
    let picture = named(&run, &["office", "weighbridge", "<a> & b"]);
    for label in [">0 office<", ">1 weighbridge<", ">2 &lt;a&gt; &amp; b<"] {
        assert_eq!(picture.matches(label).count(), 1, "{label}");
    }
    assert!(!picture.contains(">process "));
    assert_eq!(line_start(&svg(&run, &Names::none())), 104.0);
    let widest = "W".repeat(24);
    let wide = line_start(&named(&run, &["office", &widest, "mixer"]));
    assert!(wide >= 12.0 + 26.0 * 13.3, "the label of a wide name ends before {wide}");
}
