//! The wrapper's records are the engine's: a record is a step exactly when no world refuses it with 4, and a setup is
//! one whose groups may still have a gap.

mod support;

use engine::{Record, Refusal, Setup, Step, World};
use reference::random::Random;
use support::any_records;

const RUNS: u64 = 1_500;

fn all_records(run: impl FnMut(Record)) {
    (0..RUNS).flat_map(|index| any_records(&mut Random::new(5, index))).for_each(run);
}

#[test]
fn a_record_is_a_step_exactly_when_its_form_is_not_refused() {
    let fresh = World::new(&[0, 1, 2]).unwrap();
    let (mut steps, mut others) = (0, 0);
    all_records(|record| {
        let refused = fresh.clone().step_bytes(&record) == Err(Refusal::Form);
        match Step::from_record(&record) {
            Some(step) => {
                assert!(!refused, "{record:?}");
                assert_eq!(step.record(), record);
                steps += 1;
            }
            None => {
                assert!(refused, "{record:?}");
                others += 1;
            }
        }
    });
    assert!(steps > 10_000 && others > 10_000, "{steps} steps, {others} others");
}

#[test]
fn a_record_that_makes_a_world_is_a_setup() {
    let mut made = 0;
    all_records(|mut record| {
        // The first byte of most steps would refuse them all.
        record[0] &= 1;
        let mut words = vec![0; engine::WORDS];
        let world = engine::world::make(&mut words, &record);
        match Setup::from_record(&record) {
            Some(setup) => {
                assert_eq!(setup.record(), record);
                assert_eq!(World::from_setup(&setup).map(|_| ()), world);
                made += usize::from(world.is_ok());
            }
            None => assert_eq!(world, Err(Refusal::Setup), "{record:?}"),
        }
    });
    assert!(made > 1_000, "{made} made");
}
