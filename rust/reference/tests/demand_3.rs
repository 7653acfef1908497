//! Demand 3 on random runs, with both settles: the exact condition for causal delivery, order, and agreement of the FIFO
//! logs after a settle where the trust rule held.

mod support;

use reference::random::Random;
use reference::record::{crash, trust};
use reference::sample::{self, Weights, CALM, FLOOD, RACE, STORM, WRONG};
use reference::world::World;
use support::history::{History, Precedence};
use support::{agreed, letters, Settle, BUDGET, SETTLES};

/// Conclusions 1 and 2.
fn check_order(world: &World, precedence: &Precedence) {
    for (p, process) in world.processes.iter().enumerate() {
        let in_fifo = |m: usize| process.fifo_log.contains(&m);
        for m in 0..world.messages.len() {
            let past_is_in = (0..world.messages.len())
                .all(|x| !precedence.precedes(x, m) || !world.is_addressee(x, p) || in_fifo(x));
            assert_eq!(
                process.causal_log.contains(&m),
                in_fifo(m) && past_is_in,
                "message {m} at process {p}"
            );
        }
        for (at, &m) in process.causal_log.iter().enumerate() {
            for &later in &process.causal_log[at + 1..] {
                assert!(later != m && !precedence.precedes(later, m), "{m} ahead of {later} at process {p}");
            }
        }
    }
}

/// Conclusion 3: a settle says done, and then the FIFO logs agree.
fn agreement(world: &mut World, settle: Settle) -> bool {
    settle(world, BUDGET).done && agreed(world)
}

fn weights(random: &mut Random) -> Weights {
    random.pick(&[CALM, RACE, STORM, FLOOD, WRONG])
}

/// Sometimes one of the settles with a small budget, which counts as its arrivals.
fn maybe_settle(random: &mut Random, world: &mut World, history: &mut History) {
    if random.one_in(50) {
        let bound = letters(world);
        let settled = random.pick(&SETTLES)(world, random.below(20) as u32);
        assert!(settled.arrivals <= bound);
        history.note_deliveries(world);
    }
}

#[test]
fn order_after_any_list() {
    let mut waiting = 0;
    let mut overtaken = 0;
    for run in 0..2_000 {
        let random = &mut Random::new(31, run);
        let most = if run % 8 == 0 { 16 } else { 6 };
        let mut world = World::fresh(&sample::setup(random, most)).unwrap();
        let mut history = History::of_fresh(&world);
        let weights = weights(random);
        for _ in 0..random.below(400) {
            let step = sample::step(random, &world, &weights);
            history.step(&mut world, &step);
            maybe_settle(random, &mut world, &mut history);
        }
        check_order(&world, &history.precedence());
        if random.one_in(2) {
            random.pick(&SETTLES)(&mut world, BUDGET);
            history.note_deliveries(&world);
            check_order(&world, &history.precedence());
        }
        waiting += world.processes.iter().filter(|p| p.causal_log.len() < p.fifo_log.len()).count();
        overtaken += world.processes.iter().filter(|p| !p.fifo_log.starts_with(&p.causal_log)).count();
    }
    assert!(waiting > 20, "{waiting} processes have a message that waits");
    assert!(overtaken > 50, "{overtaken} processes have causal logs in another order than their FIFO logs");
}

/// A trust set with a member of `live` for each group that has one: the given one, and some more if it must.
fn trusting(random: &mut Random, world: &World, live: &[bool], mask: u16) -> u16 {
    let mut mask = mask;
    for group in 0..world.groups() {
        let members: Vec<usize> =
            (0..live.len()).filter(|&q| live[q] && world.processes[q].group == group).collect();
        if !members.is_empty() && members.iter().all(|&q| mask >> q & 1 == 0) {
            mask |= 1 << random.pick(&members);
        }
    }
    mask
}

/// A run whose end has exactly the processes of `live` up, and that keeps the trust rule.
fn trusted_run(random: &mut Random, world: &mut World, history: &mut History, live: &[bool]) {
    let weights = weights(random);
    for _ in 0..random.below(400) {
        let mut step = sample::step(random, world, &weights);
        let of_live = step.len() == 8 && live.get(usize::from(step[1])) == Some(&true);
        if step.len() == 8 && step[0] == 4 {
            let mask = trusting(random, world, live, u16::from_le_bytes([step[2], step[3]]));
            step[2..4].copy_from_slice(&mask.to_le_bytes());
        }
        if !(of_live && step[0] == 5) {
            history.step(world, &step);
        }
        maybe_settle(random, world, history);
    }
    let all_live = (0..live.len()).filter(|&q| live[q]).fold(0, |mask, q| mask | 1 << q);
    for p in 0..live.len() {
        if live[p] {
            let some_live = all_live & random.next() as u16;
            let mask = trusting(random, world, live, some_live);
            history.steps(world, &[trust(p, mask)]);
        } else {
            history.steps(world, &[crash(p)]);
        }
    }
}

#[test]
fn agreement_where_the_trust_rule_held() {
    let (mut delivered, mut of_down) = (0, 0);
    for run in 0..1_500 {
        let random = &mut Random::new(33, run);
        let most = if run % 8 == 0 { 16 } else { 6 };
        let mut world = World::fresh(&sample::setup(random, most)).unwrap();
        let mut history = History::of_fresh(&world);
        let live: Vec<bool> = world.processes.iter().map(|_| !random.one_in(3)).collect();
        trusted_run(random, &mut world, &mut history, &live);
        assert!(history.trust_rule(&world), "the run keeps the trust rule");
        of_down += usize::from(world.flight.iter().any(|letter| !live[letter.from] && live[letter.to]));
        let bound = letters(&world);
        for settle in SETTLES {
            let (mut world, mut history) = (world.clone(), history.clone());
            assert!(settle(&mut world.clone(), bound).done, "the letters bound the arrivals");
            assert!(agreement(&mut world, settle), "run {run}");
            history.note_deliveries(&world);
            check_order(&world, &history.precedence());
            delivered += world.processes.iter().map(|process| process.fifo_log.len()).sum::<usize>();
        }
    }
    assert!(delivered > 20_000, "{delivered} FIFO deliveries");
    assert!(of_down > 300, "{of_down} settles with a letter of a process that is down to one that is up");
}

#[test]
fn agreement_fails_without_the_trust_rule() {
    let mut failed = [0; SETTLES.len()];
    for run in 0..300 {
        let random = &mut Random::new(34, run);
        let mut world = World::fresh(&sample::setup(random, 4)).unwrap();
        let mut history = History::of_fresh(&world);
        for _ in 0..200 {
            let step = sample::step(random, &world, &STORM);
            history.step(&mut world, &step);
        }
        for (settle, failed) in SETTLES.into_iter().zip(&mut failed) {
            *failed += usize::from(!history.trust_rule(&world) && !agreement(&mut world.clone(), settle));
        }
    }
    assert!(failed.iter().all(|&failed| failed > 0), "the test of agreement can fail");
}
