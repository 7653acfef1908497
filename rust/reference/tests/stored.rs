//! The stored journals, each with what the program `replay` prints for it: the second implementation says the same.

use reference::replay::output;
use std::ffi::OsStr;
use std::fs;
use std::path::Path;

#[test]
fn stored_outputs() {
    let folder = Path::new(env!("CARGO_MANIFEST_DIR")).join("../../tests/journals");
    let mut tried = 0;
    for entry in fs::read_dir(folder).expect("the folder of journals") {
        let path = entry.expect("an entry").path();
        if path.extension() == Some(OsStr::new("journal")) {
            let journal = fs::read(&path).expect("a journal");
            let stored = fs::read_to_string(path.with_extension("out")).expect("its output");
            assert_eq!(output(&journal), stored, "{}", path.display());
            tried += 1;
        }
    }
    assert!(tried >= 19, "{tried} journals");
}
