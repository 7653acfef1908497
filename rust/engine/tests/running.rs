//! What whoever runs a mill has to know: what to carry, what to keep, and when a world or a journal is full.

use engine::{journal, raw, Letter, LetterKind, Record, Refusal, Setup, Step, World};
use engine::{Awaited, Precedence, Previewed, Settled, MESSAGES, PAIRS, PROCESSES, SETTLE_ALL, WORDS};

/// A world and the records that led to it.
struct Mill {
    world: World,
    records: Vec<Record>,
}

impl Mill {
    fn new(groups: &[u8]) -> Mill {
        let setup = Setup::new(groups).unwrap();
        Mill { world: World::from_setup(&setup).unwrap(), records: vec![setup.record()] }
    }

    fn take(&mut self, step: Step) {
        self.world.step(step).unwrap();
        self.records.push(step.record());
    }

    fn multicast(&mut self, process: u8, groups: &[u8]) {
        self.take(Step::multicast(process, groups).unwrap());
    }

    /// The lowest letter whose receiver is up.
    fn lowest(&self) -> Option<Letter> {
        self.world.letters().into_iter().find(|letter| self.world.is_up(letter.to))
    }

    /// Takes the lowest letters as arrivals, one by one, while there are any: how many.
    fn carry(&mut self) -> u32 {
        let mut arrivals = 0;
        while let Some(letter) = self.lowest() {
            self.take(Step::Arrival(letter));
            arrivals += 1;
        }
        arrivals
    }

    /// The first letter to the first process, of those behind this one and this one at the end, that is up and has one.
    fn in_turn(&self, last: u8) -> Option<Letter> {
        let n = self.world.processes() as u8;
        let letters = self.world.letters();
        let mut turns = (1..=n).map(|i| (last + i) % n).filter(|&to| self.world.is_up(to));
        turns.find_map(|to| letters.iter().find(|letter| letter.to == to).copied())
    }

    /// Takes letters in turn as arrivals, the first turn being that of process 0: the letters.
    fn carry_in_turn(&mut self) -> Vec<Letter> {
        let mut carried: Vec<Letter> = Vec::new();
        let behind = self.world.processes() as u8 - 1;
        while let Some(letter) = self.in_turn(carried.last().map_or(behind, |letter| letter.to)) {
            self.take(Step::Arrival(letter));
            carried.push(letter);
        }
        carried
    }

    fn journal(&self) -> Vec<u8> {
        journal::from_records(&self.records).unwrap()
    }

    fn causal_log(&self, process: u8) -> &[u16] {
        self.world.causal_log(process).unwrap()
    }
}

fn replayed(journal: &[u8]) -> World {
    let (world, replayed) = World::replay(journal).unwrap();
    assert_eq!(replayed.refused, 0);
    world
}

/// Six processes, several messages on their way, and one process down.
fn busy_mill() -> Mill {
    let mut mill = Mill::new(&[0, 1, 1, 2, 2, 2]);
    mill.multicast(0, &[1, 2]);
    mill.multicast(3, &[0, 2]);
    mill.take(Step::arrival(LetterKind::First, 0, 0, 4));
    mill.multicast(0, &[2]);
    mill.take(Step::arrival(LetterKind::First, 2, 0, 5));
    mill.take(Step::crash(4));
    for process in [0, 1, 2, 3, 5] {
        mill.take(Step::trust(process, &[0, 1, 2, 3, 5]).unwrap());
    }
    mill.multicast(1, &[0, 1, 2]);
    mill
}

#[test]
fn the_arrivals_of_a_settle_taken_as_steps_are_in_the_journal() {
    let mut mill = busy_mill();
    let before = mill.journal();
    let of_crashed =
        |mill: &Mill| mill.world.letters().iter().any(|letter| letter.from == 4 && letter.to != 4);
    assert!(of_crashed(&mill));
    let mut settled = mill.world.clone();
    let answer = settled.settle(SETTLE_ALL);
    assert!(answer.done && answer.arrivals > 50, "{answer:?}");
    assert_eq!(mill.carry(), answer.arrivals);
    assert!(!of_crashed(&mill), "its letters have come");
    let left = mill.world.letters();
    assert!(!left.is_empty() && left.iter().all(|letter| letter.to == 4), "letters to it are left");
    assert_eq!(mill.world.words(), settled.words());
    assert_eq!(replayed(&mill.journal()).words(), settled.words());
    assert_ne!(replayed(&before).words(), settled.words());
}

#[test]
fn a_settle_that_is_stopped_leaves_what_as_many_arrivals_leave() {
    let mut mill = busy_mill();
    let start = mill.world.clone();
    let mut arrivals = 0;
    while let Some(letter) = mill.lowest() {
        let mut stopped = start.clone();
        assert_eq!(stopped.settle(arrivals), Settled { arrivals, done: false });
        assert_eq!(stopped.words(), mill.world.words());
        mill.take(Step::Arrival(letter));
        arrivals += 1;
    }
    assert_eq!(start.clone().settle(arrivals), Settled { arrivals, done: true });
}

#[test]
fn the_arrivals_of_a_fair_settle_taken_as_steps_are_in_the_journal() {
    let mut mill = busy_mill();
    let mut settled = mill.world.clone();
    let answer = settled.settle_fair(SETTLE_ALL);
    assert!(answer.done && answer.arrivals > 50, "{answer:?}");
    assert_eq!(mill.carry_in_turn().len() as u32, answer.arrivals);
    assert_eq!(mill.world.words(), settled.words());
    assert_eq!(replayed(&mill.journal()).words(), settled.words());
}

#[test]
fn a_fair_settle_that_is_stopped_leaves_what_as_many_arrivals_leave() {
    let start = busy_mill().world;
    let mut carried = busy_mill();
    let letters = carried.carry_in_turn();
    let mut world = start.clone();
    for (arrivals, &letter) in letters.iter().enumerate() {
        let mut stopped = start.clone();
        let arrivals = arrivals as u32;
        assert_eq!(stopped.settle_fair(arrivals), Settled { arrivals, done: false });
        assert_eq!(stopped.words(), world.words());
        world.step(Step::Arrival(letter)).unwrap();
    }
    let arrivals = letters.len() as u32;
    assert_eq!(start.clone().settle_fair(arrivals), Settled { arrivals, done: true });
}

/// The office sends eight messages to the mixers, 1 and 2, and then one to the silo store, 3.
fn store_behind_mixers() -> Mill {
    let mut mill = Mill::new(&[0, 1, 1, 2]);
    for _ in 0..8 {
        mill.multicast(0, &[1]);
    }
    mill.multicast(0, &[2]);
    mill
}

/// With the lowest letter first the store is served when the mixers have all that is theirs; in turn, after these two.
#[test]
fn in_turn_a_silo_store_does_not_wait_behind_the_mixers() {
    let mill = store_behind_mixers();
    let acts = |settle: fn(&mut World, u32) -> Settled, budget: u32| {
        let mut world = mill.world.clone();
        settle(&mut world, budget);
        world.causal_log(3).unwrap().len()
    };
    assert_eq!((acts(World::settle, 49), acts(World::settle, 50)), (0, 1));
    assert_eq!((acts(World::settle_fair, 5), acts(World::settle_fair, 6)), (0, 1));
    let served: Vec<u8> = store_behind_mixers().carry_in_turn().iter().map(|letter| letter.to).collect();
    assert_eq!(served, [vec![1, 2, 3, 1, 2, 3], [1, 2].repeat(22)].concat());
}

/// The FIFO logs of both settles, of a process in a mill.
fn settled_logs(mill: &Mill, process: u8) -> [Vec<u16>; 2] {
    [World::settle, World::settle_fair].map(|settle| {
        let mut world = mill.world.clone();
        assert!(settle(&mut world, SETTLE_ALL).done);
        world.fifo_log(process).unwrap().to_vec()
    })
}

/// The trust rule is kept: after both settles every FIFO log has the same messages, maybe in another order. The mixer, 1,
/// has four messages before it is the turn of message 4, which is to the store too; that of the weighbridge, message 5, is
/// not kept up by it.
#[test]
fn both_settles_end_with_the_same_messages_in_every_fifo_log() {
    let mut mill = Mill::new(&[0, 1, 2, 3]);
    for groups in [&[1][..], &[1], &[1], &[1], &[1, 2]] {
        mill.multicast(0, groups);
    }
    mill.multicast(3, &[2]);
    assert_eq!(settled_logs(&mill, 2), [[4, 5], [5, 4]]);
    for mill in [mill, busy_mill()] {
        for process in 0..mill.world.processes() as u8 {
            let [lowest, fair] = settled_logs(&mill, process).map(|mut log| {
                log.sort_unstable();
                log
            });
            assert_eq!(lowest, fair, "process {process}");
        }
    }
}

/// Single arrivals all begin with process 0, and the first mixer is served again and again. With a budget of as many as
/// there are processes each that has letters is served.
#[test]
fn each_fair_settle_begins_with_process_0() {
    let mut mill = store_behind_mixers();
    for _ in 0..8 {
        assert_eq!(mill.world.settle_fair(1).arrivals, 1);
    }
    let of_others = mill.world.letters().iter().filter(|letter| letter.from == 0 && letter.to != 1).count();
    assert_eq!(of_others, 9, "all that the office has sent to others");
    let mut mill = store_behind_mixers();
    let processes = mill.world.processes() as u32;
    for round in 1..=2 {
        mill.world.settle_fair(processes);
        let delivered = mill.causal_log(3).len();
        assert_eq!(delivered, round - 1, "the silo store in round {round}");
    }
}

#[test]
fn a_fair_settle_with_budget_0_tells_whether_anything_is_to_come() {
    let mut mill = busy_mill();
    let before = mill.world.clone();
    assert_eq!(mill.world.settle_fair(0), Settled { arrivals: 0, done: false });
    assert_eq!(mill.world, before);
    mill.carry_in_turn();
    assert!(!mill.world.letters().is_empty(), "letters to a process that is down");
    assert_eq!(mill.world.settle_fair(0), Settled { arrivals: 0, done: true });
}

#[test]
fn a_refused_settle_changes_nothing_that_was_lent() {
    let sound = busy_mill().world.words().to_vec();
    let mut unsound = sound.clone();
    unsound[0] = 17;
    let cases = [(&sound[..], 0), (&sound[1..], 1), (&unsound[1..], 1), (&[][..], 1), (&unsound[..], 2)];
    for settle in [raw::settle, raw::settle_fair] {
        for (words, answer) in cases {
            let mut lent = words.to_vec();
            let (mut arrivals, mut done) = (7, 8);
            assert_eq!(settle(&mut lent, 3, &mut arrivals, &mut done), answer);
            assert_eq!(lent == words, answer != 0);
            assert_eq!((arrivals, done), if answer == 0 { (3, 0) } else { (7, 8) });
        }
    }
}

#[test]
fn a_letter_of_a_process_to_itself_must_be_carried() {
    let mut mill = Mill::new(&[0, 1, 1]);
    mill.multicast(0, &[1]);
    let other = |mill: &Mill| mill.world.letters().into_iter().find(|letter| letter.from != letter.to);
    while let Some(letter) = other(&mill) {
        mill.take(Step::Arrival(letter));
    }
    for machine in [1, 2] {
        assert!(mill.causal_log(machine).is_empty());
        mill.take(Step::arrival(LetterKind::Ok, 0, machine, machine));
        assert_eq!(mill.causal_log(machine), [0]);
    }
}

#[test]
fn a_letter_of_a_crashed_sender_may_still_arrive_and_lead_to_a_delivery() {
    let mut mill = Mill::new(&[0, 1]);
    mill.multicast(0, &[1]);
    mill.take(Step::crash(0));
    let mut settled = mill.world.clone();
    assert_eq!(settled.settle(SETTLE_ALL).arrivals, 2, "a settle takes its arrival too");
    mill.take(Step::arrival(LetterKind::First, 0, 0, 1));
    mill.take(Step::arrival(LetterKind::Ok, 0, 1, 1));
    assert_eq!(mill.causal_log(1), [0]);
    assert_eq!(mill.world, settled);
}

/// The office sends a recipe to the mixer, process 1, and dies. Once a settle says done, nothing is left to come.
#[test]
fn after_a_settle_the_last_letter_of_a_crashed_sender_has_come() {
    let mut mill = Mill::new(&[0, 1, 2]);
    mill.multicast(0, &[1]);
    mill.take(Step::crash(0));
    for budget in 0..2 {
        assert_eq!(mill.world.clone().settle(budget), Settled { arrivals: budget, done: false });
    }
    assert_eq!(mill.world.settle(SETTLE_ALL), Settled { arrivals: 2, done: true });
    assert_eq!((mill.world.fifo_log(1), mill.world.causal_log(1)), (Ok(&[0][..]), Ok(&[0][..])));
    assert!(mill.world.letters().is_empty());
}

/// A settle with budget 0 moves nothing and says done just when no letter is in flight to a process that is up.
#[test]
fn a_settle_with_budget_0_tells_whether_anything_is_to_come() {
    let mut mill = busy_mill();
    while let Some(letter) = mill.lowest() {
        let before = mill.world.clone();
        assert_eq!(mill.world.settle(0), Settled { arrivals: 0, done: false });
        assert_eq!(mill.world, before);
        mill.take(Step::Arrival(letter));
    }
    assert!(!mill.world.letters().is_empty(), "letters to a process that is down");
    assert_eq!(mill.world.settle(0), Settled { arrivals: 0, done: true });
}

#[test]
fn a_settle_moves_no_letter_to_a_crashed_receiver_and_none_that_was_lost() {
    let mut mill = Mill::new(&[0, 1, 1]);
    mill.multicast(0, &[1]);
    mill.take(Step::crash(0));
    mill.take(Step::crash(1));
    mill.take(Step::loss(LetterKind::First, 0, 0, 2));
    let before = mill.world.clone();
    assert_eq!(mill.world.settle(SETTLE_ALL), Settled { arrivals: 0, done: true });
    assert_eq!(mill.world, before);
    assert_eq!(mill.world.letters().len(), 1, "the one to process 1");
}

#[test]
fn a_letter_to_a_crashed_receiver_is_refused_as_an_arrival_and_taken_as_a_loss() {
    let mut mill = Mill::new(&[0, 1]);
    mill.multicast(0, &[1]);
    mill.take(Step::crash(1));
    let before = mill.world.clone();
    assert_eq!(mill.world.step(Step::arrival(LetterKind::First, 0, 0, 1)), Err(Refusal::Down));
    assert_eq!(Refusal::Down.number(), 9);
    assert_eq!(mill.world.words(), before.words());
    mill.take(Step::loss(LetterKind::First, 0, 0, 1));
    assert!(mill.world.letters().is_empty());
}

#[test]
fn a_full_world_refuses_the_65th_multicast_and_stays_as_it_is() {
    let mut mill = Mill::new(&[0, 1]);
    for _ in 0..MESSAGES {
        mill.multicast(0, &[1]);
    }
    let full = mill.world.clone();
    for process in [0, 1] {
        let refused = mill.world.step(Step::multicast(process, &[0, 1]).unwrap());
        assert_eq!(refused, Err(Refusal::Full));
        assert_eq!(mill.world.words(), full.words());
    }
    assert_eq!(Refusal::Full.number(), 10);
    mill.carry();
    assert_eq!(mill.causal_log(1).len(), MESSAGES);
    assert_eq!(mill.world.step(Step::multicast(0, &[1]).unwrap()), Err(Refusal::Full));
}

/// In the largest group each message takes 273 records: its multicast, 16 first letters and 16 x 16 OKs.
#[test]
fn a_journal_is_full_at_the_30th_message_to_16_processes() {
    let mut mill = Mill::new(&[0; PROCESSES]);
    let mut sent = 0;
    while journal::length(8 * mill.records.len()).is_ok() {
        assert_eq!(mill.records.len(), 1 + 273 * sent);
        mill.multicast((sent % PROCESSES) as u8, &[0]);
        assert_eq!(mill.carry(), 272);
        sent += 1;
        assert_eq!(mill.causal_log(0).len(), sent);
    }
    assert_eq!((sent, mill.records.len()), (30, 8_191));
    assert_eq!(journal::length(8 * 8_191), Err(Refusal::RecordsLength));
    assert_eq!(Refusal::RecordsLength.number(), 16);
    assert_eq!(journal::from_records(&mill.records), Err(Refusal::RecordsLength));
    let without_the_last = &mill.records[..7_918];
    assert_eq!(replayed(&journal::from_records(without_the_last).unwrap()).messages(), 29);
    assert_eq!(journal::from_records(&mill.records[..journal::RECORDS]).map(|j| j.len()), Ok(journal::BYTES));
}

/// Whether the journal of a world can be written when 64 messages have gone to all of so many processes.
fn world_is_full_first(processes: usize) -> bool {
    let mut mill = Mill::new(&vec![0; processes]);
    for _ in 0..MESSAGES {
        mill.multicast(0, &[0]);
        mill.carry();
    }
    assert_eq!(mill.records.len(), 1 + MESSAGES * (1 + processes + processes * processes));
    journal::length(8 * mill.records.len()).is_ok()
}

#[test]
fn without_relays_a_world_for_10_processes_is_full_before_its_journal() {
    assert!(world_is_full_first(10));
    assert!(!world_is_full_first(11));
}

/// Whether the journal can be written when 64 messages to so many processes arrive the last one first.
fn world_is_full_first_with_relays(processes: usize) -> bool {
    let mut mill = Mill::new(&vec![0; processes]);
    for _ in 0..MESSAGES {
        mill.multicast(0, &[0]);
    }
    while let Some(letter) = mill.world.letters().pop() {
        mill.take(Step::Arrival(letter));
    }
    assert_eq!(mill.causal_log(0).len(), MESSAGES);
    let most = 1 + MESSAGES * (1 + processes + 2 * processes * processes);
    assert!(mill.records.len() > most * 9 / 10 && mill.records.len() <= most, "{}", mill.records.len());
    assert_eq!(most <= journal::RECORDS, processes <= 7);
    journal::length(8 * mill.records.len()).is_ok()
}

#[test]
fn a_world_for_7_processes_is_full_before_its_journal() {
    assert!(world_is_full_first_with_relays(7));
    assert!(!world_is_full_first_with_relays(8));
}

#[test]
fn a_letter_of_an_earlier_world_would_be_taken_in_the_next() {
    let late = Step::arrival(LetterKind::First, 0, 0, 1);
    let mut mill = Mill::new(&[0, 1]);
    mill.multicast(0, &[1]);
    mill.carry();
    assert_eq!(mill.world.step(late), Err(Refusal::NotInFlight), "twice in one world");
    let mut next = Mill::new(&[0, 1]);
    next.multicast(0, &[1]);
    next.take(late);
}

/// The words before the first step that has no place in the journal, then that step and those that follow.
#[test]
fn a_world_goes_on_from_its_words_when_its_journal_is_full() {
    let mut mill = busy_mill();
    let full = mill.records.len();
    let words = mill.world.words().to_vec();
    mill.carry();
    let mut back = World::from_words(words).unwrap();
    for record in &mill.records[full..] {
        back.step_bytes(record).unwrap();
    }
    assert_eq!(back, mill.world);
}

#[test]
fn a_trust_step_alone_can_deliver_and_send_letters() {
    let mut mill = Mill::new(&[0, 1, 1]);
    mill.multicast(0, &[1]);
    mill.multicast(0, &[1]);
    mill.take(Step::crash(2));
    mill.carry();
    assert!(mill.causal_log(1).is_empty() && mill.lowest().is_none());
    mill.take(Step::trust(1, &[0, 1]).unwrap());
    assert_eq!(mill.causal_log(1), [0]);
    assert!(mill.lowest().is_some());
}

/// The lengths of all FIFO and of all causal logs, each taken together.
fn delivered(world: &World) -> (usize, usize) {
    let all = |log: fn(&World, u8) -> Result<&[u16], Refusal>| {
        (0..world.processes() as u8).map(|process| log(world, process).unwrap().len()).sum()
    };
    (all(World::fifo_log), all(World::causal_log))
}

/// What a letter, or a trust step, would do is shown and not done; then it is done, and is what was shown.
#[test]
fn a_preview_shows_what_a_step_does_and_does_nothing() {
    let mut mill = busy_mill();
    let mut deliveries = 0;
    while let Some(letter) = mill.lowest() {
        let steps =
            [Step::Arrival(letter), Step::trust(letter.to, &[letter.to]).unwrap(), Step::crash(letter.to)];
        for step in steps {
            let before = mill.world.clone();
            let (shown, adds) = mill.world.preview(step).unwrap();
            assert_eq!(mill.world, before, "{step:?}");
            let mut then = before.clone();
            then.step(step).unwrap();
            assert_eq!(shown, then, "{step:?}");
            let ((fifo, causal), (fifo_then, causal_then)) = (delivered(&before), delivered(&then));
            let grown = Previewed { fifo: (fifo_then - fifo) as u32, causal: (causal_then - causal) as u32 };
            assert_eq!(adds, grown, "{step:?}");
            deliveries += adds.causal;
        }
        mill.take(steps[0]);
    }
    assert!(deliveries > 20, "{deliveries}");
}

/// The call, message 2, overtakes the recipe, message 0: its last letter to the mixer, process 2, is in flight.
fn overtaken() -> Mill {
    let mut mill = Mill::new(&[0, 1, 2]);
    mill.multicast(0, &[2]);
    mill.multicast(0, &[1]);
    mill.take(Step::arrival(LetterKind::First, 1, 0, 1));
    mill.take(Step::arrival(LetterKind::Ok, 1, 1, 1));
    mill.multicast(1, &[2]);
    mill.take(Step::arrival(LetterKind::First, 2, 1, 2));
    mill
}

/// First the call would be FIFO-delivered alone, and the recipe would bring both.
#[test]
fn a_preview_tells_fifo_deliveries_from_causal_ones() {
    let mut mill = overtaken();
    let call = Step::arrival(LetterKind::Ok, 2, 2, 2);
    assert_eq!(mill.world.preview(call).unwrap().1, Previewed { fifo: 1, causal: 0 });
    mill.take(call);
    mill.take(Step::arrival(LetterKind::First, 0, 0, 2));
    let (shown, adds) = mill.world.preview(Step::arrival(LetterKind::Ok, 0, 2, 2)).unwrap();
    assert_eq!(adds, Previewed { fifo: 1, causal: 2 });
    assert_eq!((shown.fifo_log(2), shown.causal_log(2)), (Ok(&[2, 0][..]), Ok(&[0, 2][..])));
}

/// What was shown is a world: what would come after can be looked at, and taken there, without the mill.
#[test]
fn a_preview_can_be_gone_on_from() {
    let mut mill = Mill::new(&[0, 1, 1]);
    mill.multicast(0, &[1]);
    let before = mill.world.clone();
    let (mut shown, adds) = mill.world.preview(Step::arrival(LetterKind::First, 0, 0, 1)).unwrap();
    assert_eq!(adds, Previewed { fifo: 0, causal: 0 });
    shown = shown.preview(Step::arrival(LetterKind::Ok, 0, 1, 1)).unwrap().0;
    let (after, adds) = shown.preview(Step::trust(1, &[1]).unwrap()).unwrap();
    assert_eq!((adds, after.causal_log(1)), (Previewed { fifo: 1, causal: 1 }, Ok(&[0][..])));
    assert!(shown.settle(SETTLE_ALL).done && shown.causal_log(2) == Ok(&[0]));
    assert_eq!(mill.world, before);
    mill.carry();
    assert_eq!(mill.world, shown);
}

#[test]
fn a_refused_preview_changes_nothing_that_was_lent() {
    let world = busy_mill().world;
    let (sound, mut unsound) = (world.words().to_vec(), world.words().to_vec());
    unsound[0] = 17;
    let (taken, refused) = (Step::crash(0).record(), Step::crash(4).record());
    let cases = [
        (&sound[..], &taken[..], WORDS, 0),
        (&sound[1..], &taken[..], WORDS, 1),
        (&sound[..], &taken[..], WORDS - 1, 1),
        (&sound[..], &refused[..], WORDS + 1, 1),
        (&unsound[..], &taken[..], 0, 1),
        (&unsound[..], &refused[..], WORDS, 2),
        (&sound[..], &refused[..7], WORDS, 4),
        (&sound[..], &refused[..], WORDS, 9),
    ];
    for (words, step, length, answer) in cases {
        let lent = words.to_vec();
        let mut second = vec![0xA5A5; length];
        let (mut fifo, mut causal) = (7, 8);
        assert_eq!(raw::preview(&lent, step, &mut second, &mut fifo, &mut causal), answer);
        assert_eq!(lent, words);
        assert_eq!(second.iter().all(|&word| word == 0xA5A5), answer != 0);
        assert_eq!((fifo, causal), if answer == 0 { (0, 0) } else { (7, 8) });
    }
    assert_eq!(world.preview_bytes(&refused[..7]), Err(Refusal::Form));
    assert_eq!(world.preview(Step::crash(4)), Err(Refusal::Down));
}

/// That mill, once the call is in the FIFO log of the mixer, where it waits.
fn waiting() -> Mill {
    let mut mill = overtaken();
    mill.take(Step::arrival(LetterKind::Ok, 2, 2, 2));
    mill
}

#[test]
fn the_call_awaits_the_recipe_until_it_is_delivered() {
    let mut mill = waiting();
    for letter in [Step::arrival(LetterKind::First, 0, 0, 2), Step::arrival(LetterKind::Ok, 0, 2, 2)] {
        let before = mill.world.clone();
        assert_eq!(mill.world.awaited(2, 2), Ok(Awaited::Message { of: 0, message: 0 }));
        assert_eq!(mill.world.awaited(2, 0), Err(Refusal::NotWaiting), "not in the FIFO log");
        assert_eq!(mill.world, before);
        mill.take(letter);
    }
    for message in [0, 2] {
        assert_eq!(mill.world.awaited(2, message), Err(Refusal::NotWaiting), "in the causal log");
    }
    assert_eq!(Refusal::NotWaiting.number(), 18);
}

#[test]
fn what_is_awaited_at_a_machine_that_is_down_can_be_asked() {
    let mut mill = waiting();
    mill.take(Step::crash(2));
    mill.take(Step::crash(0));
    assert_eq!(mill.world.awaited(2, 2), Ok(Awaited::Message { of: 0, message: 0 }));
    assert_eq!(mill.world.awaited(1, 1), Err(Refusal::NotWaiting));
}

/// Message 4 waits for 2, which has come, and that one for 0, which has not.
#[test]
fn asking_on_leads_to_a_message_that_has_not_come() {
    let mut mill = Mill::new(&[0, 1, 2, 3]);
    mill.multicast(3, &[2]);
    mill.multicast(3, &[0]);
    mill.take(Step::arrival(LetterKind::First, 1, 3, 0));
    mill.take(Step::arrival(LetterKind::Ok, 1, 0, 0));
    mill.multicast(0, &[2]);
    mill.multicast(0, &[1]);
    mill.take(Step::arrival(LetterKind::First, 3, 0, 1));
    mill.take(Step::arrival(LetterKind::Ok, 3, 1, 1));
    mill.multicast(1, &[2]);
    for (message, from) in [(4, 1), (2, 0)] {
        mill.take(Step::arrival(LetterKind::First, message, from, 2));
        mill.take(Step::arrival(LetterKind::Ok, message, 2, 2));
    }
    assert_eq!((mill.world.fifo_log(2), mill.world.causal_log(2)), (Ok(&[4, 2][..]), Ok(&[][..])));
    assert_eq!(mill.world.awaited(2, 4), Ok(Awaited::Message { of: 0, message: 2 }));
    assert_eq!(mill.world.awaited(2, 2), Ok(Awaited::Message { of: 3, message: 0 }));
    assert_eq!(mill.world.awaited(2, 0), Err(Refusal::NotWaiting));
    mill.carry();
    assert_eq!(mill.causal_log(2), [0, 2, 4]);
}

/// Where the words of a world have del[0] of process 2, and C[2][0] of message 0.
const DEL: usize = 3 + 2 * 429 + 154;
const COUNTER: usize = 6_867 + 2 + 2 * 16;

/// The words of the mill in which the call waits, with one of them edited.
fn edited(place: usize, word: u16) -> Vec<u16> {
    let mut words = waiting().world.words().to_vec();
    assert_ne!(words[place], word);
    words[place] = word;
    words
}

/// Such words are sound, but no steps lead there.
#[test]
fn in_edited_words_nothing_may_be_awaited_or_a_process_alone() {
    let cases = [
        (waiting().world.words().to_vec(), (1, 0, 0), Awaited::Message { of: 0, message: 0 }),
        (edited(DEL, 1), (0, 8, 9), Awaited::Nothing),
        (edited(COUNTER, 0), (2, 0, 9), Awaited::Process { of: 0 }),
        (edited(COUNTER, 2), (2, 0, 9), Awaited::Process { of: 0 }),
    ];
    for (words, numbers, answer) in cases {
        let lent = words.clone();
        let (mut kind, mut of, mut awaited) = (7, 8, 9);
        assert_eq!(raw::awaited(&lent, 2, 2, &mut kind, &mut of, &mut awaited), 0);
        assert_eq!((kind, of, awaited), numbers, "the rest as lent");
        assert_eq!(lent, words);
        assert_eq!(World::from_words(words).unwrap().awaited(2, 2), Ok(answer));
    }
}

#[test]
fn a_refused_question_changes_nothing_that_was_lent() {
    let sound = waiting().world.words().to_vec();
    let mut unsound = sound.clone();
    unsound[0] = 17;
    let cases = [
        (&sound[1..], 3, 3, 1),
        (&unsound[..], 3, 3, 2),
        (&unsound[..], 2, 2, 2),
        (&sound[..], 3, 3, 5),
        (&sound[..], 256, 2, 5),
        (&sound[..], 2, 3, 7),
        (&sound[..], 2, u32::MAX, 7),
        (&sound[..], 2, 0, 18),
        (&sound[..], 2, 1, 18),
        (&sound[..], 1, 1, 18),
    ];
    for (words, process, message, answer) in cases {
        let lent = words.to_vec();
        let (mut kind, mut of, mut awaited) = (7, 8, 9);
        assert_eq!(raw::awaited(&lent, process, message, &mut kind, &mut of, &mut awaited), answer);
        assert_eq!((kind, of, awaited), (7, 8, 9), "refusal {answer}");
        assert_eq!(lent, words);
    }
    let world = World::from_words(sound).unwrap();
    assert_eq!(world.awaited(3, 0), Err(Refusal::Process));
    assert_eq!(world.awaited(2, 3), Err(Refusal::Message));
}

/// The recipe, message 0, precedes the release, 1, and both the call, 2, from the multicasts on.
#[test]
fn which_came_first_is_told_for_many_pairs() {
    let mut mill = waiting();
    let pairs = [[0, 1], [0, 2], [1, 2], [1, 0], [2, 0], [2, 1], [0, 0], [2, 2]];
    let answers = vec![true, true, true, false, false, false, false, false];
    for letter in [Step::arrival(LetterKind::First, 0, 0, 2), Step::arrival(LetterKind::Ok, 0, 2, 2)] {
        let before = mill.world.clone();
        let precedence = Precedence { answers: answers.clone(), different: 3 };
        assert_eq!(mill.world.precedes(&pairs), Ok(precedence));
        assert_eq!(mill.world, before);
        mill.take(letter);
    }
    assert_eq!(mill.world.precedes(&[]), Ok(Precedence { answers: vec![], different: 0 }));
    let most = Precedence { answers: vec![true; PAIRS], different: 2 };
    assert_eq!(mill.world.precedes(&[[0, 2]; PAIRS]), Ok(most));
    assert_eq!(mill.world.precedes(&[[0, 2]; PAIRS + 1]), Err(Refusal::PairsLength));
    assert_eq!(Refusal::PairsLength.number(), 19);
    assert_eq!(mill.world.precedes(&[[0, 2], [0, 65_535]]), Err(Refusal::Message));
}

/// All that process 3 has delivered precedes its next message; and no message precedes an earlier one of a log.
#[test]
fn causal_logs_go_by_which_came_first() {
    let mut mill = busy_mill();
    mill.carry();
    let delivered = mill.causal_log(3).to_vec();
    mill.multicast(3, &[0, 1, 2]);
    mill.carry();
    let pairs: Vec<[u16; 2]> = delivered.iter().map(|&message| [message, 4]).collect();
    assert_eq!(mill.world.precedes(&pairs), Ok(Precedence { answers: vec![true; 4], different: 5 }));
    for process in [0, 1, 2, 3, 5] {
        let log = mill.causal_log(process);
        assert_eq!(log.last(), Some(&4));
        for (place, &later) in log.iter().enumerate() {
            let pairs: Vec<[u16; 2]> = log[..place].iter().map(|&earlier| [later, earlier]).collect();
            assert_eq!(mill.world.precedes(&pairs).unwrap().answers, vec![false; place]);
        }
    }
}

/// Such words are sound, but no steps lead there: the counter of message 0 for its group decides.
#[test]
fn in_edited_words_one_counter_tells_which_came_first() {
    for (words, bytes) in [(edited(COUNTER, 0), [1, 1, 0]), (edited(COUNTER, 2), [0, 0, 0])] {
        let (lent, mut answers, mut different) = (words.clone(), [7; 3], 8);
        assert_eq!(raw::precedes(&lent, &[0, 2, 0, 1, 2, 0], &mut answers, &mut different), 0);
        assert_eq!((lent, answers, different), (words, bytes, 3));
    }
}

#[test]
fn refused_pairs_change_nothing_that_was_lent() {
    let sound = waiting().world.words().to_vec();
    let mut unsound = sound.clone();
    unsound[0] = 17;
    let (good, late, long) = ([0, 2].repeat(3), [0, 2, 0, 2, 2, 3], [0, 2].repeat(257));
    let cases = [
        (&sound[1..], &late[..5], 2, 1),
        (&unsound[..], &late[..5], 2, 2),
        (&unsound[..], &good[..], 3, 2),
        (&sound[..], &good[..5], 2, 19),
        (&sound[..], &good[..5], 3, 19),
        (&sound[..], &long[..], 257, 19),
        (&sound[..], &good[..], 2, 19),
        (&sound[..], &late[..], 4, 19),
        (&sound[..], &[][..], 1, 19),
        (&sound[..], &late[..], 3, 7),
        (&sound[..], &[64, 0][..], 1, 7),
        (&sound[..], &[0, 65_535][..], 1, 7),
    ];
    for (words, pairs, length, answer) in cases {
        let (lent, lent_pairs) = (words.to_vec(), pairs.to_vec());
        let (mut answers, mut different) = (vec![7; length], 8);
        assert_eq!(raw::precedes(&lent, &lent_pairs, &mut answers, &mut different), answer);
        assert_eq!((answers, different), (vec![7; length], 8), "refusal {answer}");
        assert_eq!((&lent[..], &lent_pairs[..]), (words, pairs));
    }
}

#[test]
fn a_record_more_changes_only_the_last_block() {
    let mill = busy_mill();
    let most: Vec<Record> = mill.records.iter().cycle().take(200).copied().collect();
    for records in 1..most.len() {
        let shorter = journal::from_records(&most[..records]).unwrap();
        let longer = journal::from_records(&most[..=records]).unwrap();
        let full = records / 63 * 512;
        assert_eq!(shorter[..full], longer[..full]);
        assert!(full == 0 || journal::count(&longer[..full]) == Ok(records / 63 * 63), "a journal too");
    }
}

/// The words of a world as bytes, low byte first.
fn kept(world: &World) -> Vec<u8> {
    world.words().iter().flat_map(|word| word.to_le_bytes()).collect()
}

fn words(bytes: &[u8]) -> Vec<u16> {
    bytes.chunks(2).map(|pair| u16::from_le_bytes([pair[0], pair[1]])).collect()
}

#[test]
fn a_world_kept_as_bytes_comes_back_and_goes_on() {
    let mut mill = busy_mill();
    let bytes = kept(&mill.world);
    assert_eq!(bytes.len(), 2 * WORDS);
    let mut back = World::from_words(words(&bytes)).unwrap();
    assert_eq!(back.words(), mill.world.words());
    mill.carry();
    assert!(back.settle(SETTLE_ALL).done);
    assert_eq!(back.words(), mill.world.words());
}

#[test]
fn order_numbers_come_back_from_the_journal_and_from_kept_words() {
    let mut mill = Mill::new(&[0, 1]);
    mill.take(Step::multicast_with_order(0, &[1], 1_017).unwrap());
    mill.multicast(0, &[1]);
    mill.take(Step::multicast_with_order(1, &[0, 1], u16::MAX).unwrap());
    mill.carry();
    let kept = World::from_words(words(&kept(&mill.world))).unwrap();
    for world in [&mill.world, &replayed(&mill.journal()), &kept] {
        assert_eq!([0, 1, 2].map(|message| world.order(message)), [Ok(1_017), Ok(0), Ok(65_535)]);
        assert_eq!(world.order(3), Err(Refusal::Message));
    }
}

/// The machines do the same, whatever the order numbers are.
#[test]
fn an_order_number_changes_no_log_and_no_letter() {
    let [with, without] = [1_017, 0].map(|order| {
        let mut mill = Mill::new(&[0, 1, 1]);
        mill.take(Step::multicast_with_order(0, &[1], order).unwrap());
        mill.take(Step::multicast_with_order(1, &[0, 1], order).unwrap());
        mill.carry();
        mill.take(Step::multicast_with_order(2, &[1], order).unwrap());
        mill.world
    });
    assert_ne!(with.words(), without.words());
    assert_eq!(with.letters(), without.letters());
    for machine in 0..3 {
        assert_eq!(with.fifo_log(machine), without.fifo_log(machine));
        assert_eq!(with.causal_log(machine), without.causal_log(machine));
    }
}

#[test]
fn kept_bytes_that_make_no_sound_world_are_refused() {
    let bytes = kept(&busy_mill().world);
    let changed = |at: usize, byte: u8| {
        let mut bytes = bytes.clone();
        bytes[at] = byte;
        World::from_words(words(&bytes)).map_err(Refusal::number)
    };
    assert_eq!(changed(0, 7), Err(2), "a seventh process");
    assert_eq!(changed(4, 1), Err(2), "an unused word");
    assert_eq!(changed(bytes.len() - 1, 1), Err(2), "the last byte");
    let swapped: Vec<u8> = bytes.chunks(2).flat_map(|pair| [pair[1], pair[0]]).collect();
    assert_eq!(World::from_words(words(&swapped)), Err(Refusal::NotSound));
    assert_eq!(World::from_words(words(&bytes[2..])), Err(Refusal::WorldLength));
}

/// Kept words have no check: that a block of a journal is damaged is noticed, that a sound world is another is not.
#[test]
fn a_change_that_leaves_a_world_sound_is_not_noticed() {
    let mill = busy_mill();
    let trust_of_0 = 3 + 1;
    let mut changed = mill.world.words().to_vec();
    changed[trust_of_0] ^= 1 << 2;
    assert_ne!(World::from_words(changed).unwrap(), mill.world);
    let mut damaged = mill.journal();
    damaged[100] ^= 1;
    assert_eq!(World::replay(&damaged), Err(Refusal::Check));
}

/// What each machine has done, and how many messages of its causal log it has acted on: the number alone is kept.
struct Machines {
    done: Vec<Vec<u16>>,
    acted_on: Vec<usize>,
}

impl Machines {
    fn new(world: &World) -> Machines {
        let machines = world.processes();
        Machines { done: vec![Vec::new(); machines], acted_on: vec![0; machines] }
    }

    /// The machine acts on what is new in its causal log.
    fn act(&mut self, world: &World, machine: usize) {
        for &message in &world.causal_log(machine as u8).unwrap()[self.acted_on[machine]..] {
            self.done[machine].push(message);
            self.acted_on[machine] += 1;
        }
    }
}

/// Takes the steps from one record to another, and after each the machines act. After the last one only some machines
/// have acted when all stops.
fn run_until_stopped(world: &mut World, machines: &mut Machines, records: &[Record]) {
    for (i, record) in records.iter().enumerate() {
        world.step_bytes(record).unwrap();
        let stops = i + 1 == records.len();
        for machine in (0..world.processes()).filter(|machine| !stops || machine % 2 == 0) {
            machines.act(world, machine);
        }
    }
}

#[test]
fn after_a_restart_no_message_is_acted_on_twice_or_left_out() {
    let mut mill = busy_mill();
    mill.carry();
    let mut behind = 0;
    for stop in 1..mill.records.len() {
        let mut machines = Machines::new(&mill.world);
        let mut world = replayed(&journal::from_records(&mill.records[..1]).unwrap());
        run_until_stopped(&mut world, &mut machines, &mill.records[1..=stop]);
        let mut world = replayed(&journal::from_records(&mill.records[..=stop]).unwrap());
        for machine in 0..world.processes() {
            behind += world.causal_log(machine as u8).unwrap().len() - machines.acted_on[machine];
            machines.act(&world, machine);
        }
        run_until_stopped(&mut world, &mut machines, &mill.records[stop + 1..]);
        for machine in 0..world.processes() {
            machines.act(&world, machine);
            assert_eq!(machines.done[machine], mill.causal_log(machine as u8), "stopped at {stop}");
        }
    }
    assert!(behind > 3, "{behind} messages were acted on only after a restart");
    assert!((0..6).filter(|&machine| mill.causal_log(machine).len() > 1).count() > 3);
}

#[test]
fn order_does_not_carry_over_to_another_world() {
    let (mut first, mut second) = (Mill::new(&[0, 1]), Mill::new(&[0, 1]));
    first.multicast(0, &[1]);
    second.multicast(0, &[1]);
    second.carry();
    assert_eq!(second.causal_log(1), [0]);
    assert!(first.causal_log(1).is_empty() && !first.world.letters().is_empty());

    // In one world the later message is held back for the earlier one.
    first.multicast(0, &[1]);
    while let Some(letter) = first.world.letters().into_iter().find(|letter| letter.message == 1) {
        first.take(Step::Arrival(letter));
    }
    assert!(first.causal_log(1).is_empty());
    first.carry();
    assert_eq!(first.causal_log(1), [0, 1]);
}
