//! What the tests share.

#![allow(dead_code)]

use engine::Record;
use reference::random::Random;
use reference::sample::{self, CALM, FLOOD, RACE, STORM, WRONG};
use reference::world::World;
use std::ffi::OsStr;
use std::fs;
use std::path::{Path, PathBuf};

/// A journal that the repository stores, with its text if it has one.
pub struct Stored {
    pub name: String,
    pub journal: Vec<u8>,
    pub text: Option<String>,
}

pub fn root() -> PathBuf {
    Path::new(env!("CARGO_MANIFEST_DIR")).join("../..")
}

pub fn stored_journals() -> Vec<Stored> {
    let entries = fs::read_dir(root().join("tests/journals")).expect("the folder of journals");
    let paths = entries.map(|entry| entry.expect("an entry").path());
    let journals = paths.filter(|path| path.extension() == Some(OsStr::new("journal")));
    let read = |path: PathBuf| Stored {
        name: path.display().to_string(),
        journal: fs::read(&path).expect("a journal"),
        text: fs::read_to_string(path.with_extension("text")).ok(),
    };
    journals.map(read).collect()
}

/// The records of a run: a setup and steps that its world mostly takes.
pub fn run_records(random: &mut Random, most_steps: usize) -> Vec<Record> {
    let most = random.pick(&[3, 5, 16]);
    let setup = sample::setup(random, most);
    let mut world = World::fresh(&setup).expect("a valid setup");
    let weights = random.pick(&[CALM, RACE, STORM, FLOOD, WRONG]);
    let mut records = vec![setup];
    for _ in 0..random.below(most_steps) {
        let mut step = sample::step(random, &world, &weights);
        step.resize(8, 0);
        let _ = world.step(&step);
        let mut record = [0; 8];
        record.copy_from_slice(&step);
        records.push(record);
    }
    records
}

/// Records of any kind: of a run, of a run with some bytes changed, or any bytes.
pub fn any_records(random: &mut Random) -> Vec<Record> {
    let mut records = run_records(random, 130);
    match random.below(3) {
        0 => {}
        1 => {
            for _ in 0..random.between(1, 8) {
                let at = random.below(records.len());
                records[at][random.below(8)] = random.byte();
            }
        }
        _ => records.iter_mut().for_each(|record| random.fill(record)),
    }
    records
}
