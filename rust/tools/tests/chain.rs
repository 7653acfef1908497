//! The chains of awaited messages are those of the second implementation's answers, and lead to a message that is not
//! in the FIFO log.

mod support;

use engine::journal;
use reference::awaited::Awaited;
use reference::random::Random;
use reference::replay::replay;
use reference::world::World;
use support::{run_records, stored_journals};
use tools::chain::{chains, lines, Chain, Link};
use tools::names::Names;
use tools::run::Run;
use tools::text;

const RUNS: u64 = 1_000;

fn run(text: &str) -> Run {
    Run::of_journal(&journal::from_records(&text::to_records(text).unwrap()).unwrap()).unwrap()
}

/// Message 4, of process 1, waits at process 2 for 2, of process 0, and that one for 0, of process 3.
const TWO_LINKS: &str = "setup groups 0 1 2 3
multicast 3 to 2
multicast 3 to 0
arrival first 1 from 3 to 0
arrival ok 1 from 0 to 0
multicast 0 to 2
multicast 0 to 1
arrival first 3 from 0 to 1
arrival ok 3 from 1 to 1
multicast 1 to 2
arrival first 4 from 1 to 2
arrival ok 4 from 2 to 2
arrival first 2 from 0 to 2
arrival ok 2 from 2 to 2
";

#[test]
fn a_chain_of_two_links() {
    let run = run(TWO_LINKS);
    let [to_2, to_0] = [Link { of: 0, message: 2 }, Link { of: 3, message: 0 }];
    let expected = [
        Chain { process: 2, message: 4, links: vec![to_2, to_0], arrived: false },
        Chain { process: 2, message: 2, links: vec![to_0], arrived: false },
    ];
    assert_eq!(chains(&run), expected, "in the order of the FIFO log");
    let text =
        "process 2: message 4 waits for 2 of process 0, which waits for 0 of process 3, which has not arrived
process 2: message 2 waits for 0 of process 3, which has not arrived
";
    assert_eq!(lines(&run, &Names::none()), text);
    let names = ["office", "weighbridge", "mixer", "silo store"].map(str::to_string).to_vec();
    let text =
        "mixer: message 4 waits for 2 of office, which waits for 0 of silo store, which has not arrived
mixer: message 2 waits for 0 of silo store, which has not arrived
";
    assert_eq!(lines(&run, &Names::new(names).unwrap()), text);
}

/// A letter of the last message has come, but not the OK that lets it into the FIFO log.
#[test]
fn a_message_that_has_arrived_is_told_from_one_that_has_not() {
    let run = run(&(TWO_LINKS.to_string() + "crash 3\narrival first 0 from 3 to 2\ncrash 2\n"));
    assert!(chains(&run).iter().all(|chain| chain.arrived) && chains(&run).len() == 2);
    let text = lines(&run, &Names::none());
    assert!(
        text.ends_with(" waits for 0 of process 3, which has arrived but is not FIFO-delivered\n"),
        "{text}"
    );
}

#[test]
fn nothing_waits_once_the_last_message_is_delivered() {
    let all = TWO_LINKS.to_string() + "arrival first 0 from 3 to 2\narrival ok 0 from 2 to 2\n";
    assert!(chains(&run(&all)).is_empty() && lines(&run(&all), &Names::none()).is_empty());
}

/// The chain that the second implementation gives, and whether the last message is held.
fn expected(world: &World, p: usize, message: usize) -> Chain {
    let mut links = Vec::new();
    let mut last = message;
    while let Ok(Awaited::Message { of, message }) = world.awaited(p, last) {
        links.push(Link { of: of as u8, message: message as u8 });
        last = message;
    }
    assert!(!world.processes[p].fifo_log.contains(&last) && !links.is_empty());
    Chain { process: p as u8, message: message as u8, links, arrived: world.processes[p].held[last] }
}

/// The chains of this journal, which are those of the second implementation.
fn compare(bytes: &[u8], name: &str) -> Vec<Chain> {
    let world = replay(bytes).unwrap().world;
    let mut right = Vec::new();
    for (p, process) in world.processes.iter().enumerate() {
        let waiting = process.fifo_log.iter().filter(|message| !process.causal_log.contains(message));
        right.extend(waiting.map(|&message| expected(&world, p, message)));
    }
    assert_eq!(chains(&Run::of_journal(bytes).unwrap()), right, "{name}");
    right
}

#[test]
fn chains_are_what_the_second_implementation_says() {
    let mut all = Vec::new();
    for index in 0..RUNS {
        let records = run_records(&mut Random::new(6, index), 300);
        all.extend(compare(&journal::from_records(&records).unwrap(), &format!("run {index}")));
    }
    let arrived = all.iter().filter(|chain| chain.arrived).count();
    let long = all.iter().filter(|chain| chain.links.len() > 1).count();
    let few = format!("{} chains, {arrived} to a message that has arrived, {long} of more links", all.len());
    assert!(all.len() > 100 && arrived > 0 && arrived < all.len() && long > 0, "{few}");
}

#[test]
fn chains_of_the_stored_journals() {
    let journals = stored_journals().into_iter().filter(|stored| replay(&stored.journal).is_ok());
    let waiting: usize = journals.map(|stored| compare(&stored.journal, &stored.name).len()).sum();
    assert!(waiting >= 2, "{waiting} chains");
}
