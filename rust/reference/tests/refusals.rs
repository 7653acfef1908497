//! Refusals 3 to 12: each one, and the lowest number first.

mod support;

use reference::record::{crash, multicast, setup, trust};
use reference::world::World;
use reference::Refusal;
use support::{arrival, fresh, loss, refused, take};

/// Two processes in two groups, message 0 from 0 to both, process 1 down.
fn world() -> World {
    let mut world = fresh(&[0, 1]);
    take(&mut world, &[multicast(0, 3), crash(1)]);
    world
}

#[test]
fn refusal_3() {
    for setup in [&[][..], &[0, 1, 0, 0, 0, 0, 0][..], &[0, 1, 0, 0, 0, 0, 0, 0, 0][..]] {
        assert_eq!(World::fresh(setup), Err(Refusal::Setup), "length");
    }
    for setup in [[1, 1, 0, 0, 0, 0, 0, 0], [0, 0, 0, 0, 0, 0, 0, 0], [0, 17, 0, 0, 0, 0, 0, 0]] {
        assert_eq!(World::fresh(&setup), Err(Refusal::Setup), "{setup:?}");
    }
    assert_eq!(World::fresh(&[0, 1, 8, 0, 0, 0, 0, 0]), Err(Refusal::Setup), "a group past n");
    assert_eq!(World::fresh(&[0, 15, 0, 0, 0, 0, 0, 0x20]), Err(Refusal::Setup), "the last group past n");
    assert_eq!(World::fresh(&setup(&[1])), Err(Refusal::Setup), "no group 0");
    assert_eq!(World::fresh(&setup(&[0, 1, 3])), Err(Refusal::Setup), "no group 2");
    let groups = [7, 6, 5, 4, 3, 2, 1, 0, 0, 1, 2, 3, 4, 5, 6, 7];
    let world = fresh(&groups);
    assert!(groups.iter().zip(&world.processes).all(|(&group, process)| process.group == group));
    assert_eq!(world.groups(), 8);
}

#[test]
fn refusal_4() {
    let world = &mut world();
    refused(world, &[], Refusal::Form);
    refused(world, &multicast(0, 1)[..7], Refusal::Form);
    refused(world, &[multicast(0, 1), [0; 8]].concat()[..9], Refusal::Form);
    for kind in [0, 6, 7, 255] {
        refused(world, &[kind, 0, 1, 0, 0, 0, 0, 0], Refusal::Form);
    }
    refused(world, &[2, 3, 0, 0, 0, 0, 0, 0], Refusal::Form);
    refused(world, &[3, 255, 0, 0, 1, 0, 0, 0], Refusal::Form);
    let steps = [multicast(0, 1), arrival(0, 0, 0, 0), loss(0, 0, 0, 1), trust(0, 3), crash(0)];
    for (step, used) in steps.iter().zip([5, 5, 5, 4, 2]) {
        for unused in used..8 {
            let mut damaged = *step;
            damaged[unused] = 1;
            refused(world, &damaged, Refusal::Form);
        }
        take(&mut world.clone(), &[*step]);
    }
}

#[test]
fn refusal_5() {
    let world = &mut world();
    for step in
        [multicast(2, 1), trust(16, 0), trust(255, 0xFFFF), crash(2), arrival(0, 0, 2, 0), loss(0, 0, 0, 2)]
    {
        refused(world, &step, Refusal::NoProcess);
    }
    refused(world, &multicast(2, 0), Refusal::NoProcess);
    refused(world, &arrival(0, 9, 0, 2), Refusal::NoProcess);
}

#[test]
fn refusal_6() {
    let world = &mut world();
    for mask in [0, 4, 5, 128] {
        refused(world, &multicast(0, mask), Refusal::GroupMask);
        refused(world, &multicast(1, mask), Refusal::GroupMask);
    }
}

#[test]
fn refusal_7() {
    let world = &mut world();
    refused(world, &arrival(0, 1, 0, 0), Refusal::NoMessage);
    refused(world, &arrival(0, 255, 0, 1), Refusal::NoMessage);
    refused(world, &loss(0, 1, 0, 0), Refusal::NoMessage);
}

#[test]
fn refusal_8() {
    let world = &mut world();
    refused(world, &trust(0, 4), Refusal::TrustMask);
    refused(world, &trust(1, 0x8000), Refusal::TrustMask);
    take(world, &[trust(0, 0)]);
    take(&mut fresh(&[0; 16]), &[trust(0, 0xFFFF)]);
}

#[test]
fn refusal_9() {
    let world = &mut world();
    for step in [multicast(1, 1), trust(1, 0), crash(1), arrival(0, 0, 0, 1), arrival(1, 0, 0, 1)] {
        refused(world, &step, Refusal::Down);
    }
}

#[test]
fn refusal_10() {
    let mut world = fresh(&[0, 1]);
    for _ in 0..64 {
        take(&mut world, &[multicast(0, 1)]);
    }
    refused(&mut world, &multicast(0, 3), Refusal::Full);
    refused(&mut world, &multicast(0, 4), Refusal::GroupMask);
    take(&mut world, &[crash(0)]);
    refused(&mut world, &multicast(0, 3), Refusal::Down);
}

#[test]
fn refusal_11() {
    let world = &mut world();
    refused(world, &arrival(0, 0, 1, 0), Refusal::NotInFlight);
    refused(world, &arrival(1, 0, 0, 0), Refusal::NotInFlight);
    refused(world, &loss(2, 0, 0, 1), Refusal::NotInFlight);
    refused(world, &loss(0, 0, 1, 0), Refusal::NotInFlight);
    take(world, &[loss(0, 0, 0, 1)]);
    refused(world, &loss(0, 0, 0, 1), Refusal::NotInFlight);
}

#[test]
fn refusal_12() {
    let world = &mut world();
    refused(world, &loss(0, 0, 0, 0), Refusal::BothUp);
    take(world, &[crash(0), loss(0, 0, 0, 0)]);
}

#[test]
fn a_letter_from_a_down_process_arrives() {
    let mut world = fresh(&[0, 1]);
    take(&mut world, &[multicast(0, 2), crash(0), arrival(0, 0, 0, 1)]);
    assert!(world.processes[1].held[0]);
}
