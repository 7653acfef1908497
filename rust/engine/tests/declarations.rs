//! The functions that the engine exports are declared alike in the C header and in raw.rs: the same names, and the same
//! types in the same order. A slice passes as its pointer and its length.

use std::collections::BTreeMap;
use std::fs;
use std::path::Path;

/// The types of a function's parameters, by its name.
type Declared = BTreeMap<String, Vec<&'static str>>;

/// Reads all declarations of a file: what stands before a function's name, and how a parameter is read.
fn declared(path: &str, before: &str, types: fn(&str) -> Vec<&'static str>) -> Declared {
    let root = Path::new(env!("CARGO_MANIFEST_DIR")).join("../..");
    let text = fs::read_to_string(root.join(path)).expect(path);
    let mut all = Declared::new();
    for part in text.split(before).skip(1).filter(|part| part.starts_with("wt_")) {
        let (name, rest) = part.split_once('(').expect("a list of parameters");
        let (parameters, _) = rest.split_once(')').expect("its end");
        let parameters = parameters.split(',').map(str::trim);
        let parameters = parameters.filter(|parameter| !matches!(*parameter, "" | "void"));
        let types = parameters.flat_map(types).collect();
        assert!(all.insert(name.to_string(), types).is_none(), "{path}: {name} twice");
    }
    all
}

/// A parameter of the Rattle source: `name: type`.
fn of_rattle(parameter: &str) -> Vec<&'static str> {
    match after_colon(parameter) {
        "usize" => vec!["length"],
        "u32" => vec!["u32"],
        "bool" => vec!["bool"],
        "&mut u32" => vec!["mut u32"],
        "&[u8]" => vec!["const u8", "length"],
        "&mut [u8]" => vec!["mut u8", "length"],
        "&[u16]" => vec!["const u16", "length"],
        "&mut [u16]" => vec!["mut u16", "length"],
        other => panic!("a type of the engine that this test does not know: {other}"),
    }
}

/// A parameter of raw.rs: `name: type`.
fn of_rust(parameter: &str) -> Vec<&'static str> {
    vec![match after_colon(parameter) {
        "usize" => "length",
        "u32" => "u32",
        "bool" => "bool",
        "*mut u32" => "mut u32",
        "*const u8" => "const u8",
        "*mut u8" => "mut u8",
        "*const u16" => "const u16",
        "*mut u16" => "mut u16",
        other => panic!("a type of raw.rs that this test does not know: {other}"),
    }]
}

/// A parameter of the header: a type, then the name.
fn of_c(parameter: &str) -> Vec<&'static str> {
    let name = parameter.rfind([' ', '*']).expect("a type and a name") + 1;
    vec![match parameter[..name].trim() {
        "size_t" => "length",
        "uint32_t" => "u32",
        "bool" => "bool",
        "uint32_t *" => "mut u32",
        "const uint8_t *" => "const u8",
        "uint8_t *" => "mut u8",
        "const uint16_t *" => "const u16",
        "uint16_t *" => "mut u16",
        other => panic!("a type of the header that this test does not know: {other}"),
    }]
}

fn after_colon(parameter: &str) -> &str {
    parameter.split_once(": ").expect("a name and a type").1
}

#[test]
fn header_and_wrapper_declare_what_the_engine_exports() {
    let engine = declared("crates/engine/src/lib.rt", "pub extern \"C\" fn ", of_rattle);
    assert!(engine.len() >= 15, "{} functions", engine.len());
    assert_eq!(declared("include/wardrobeteal.h", "\nuint32_t ", of_c), engine);
    assert_eq!(declared("rust/engine/src/raw.rs", "\n    fn ", of_rust), engine);
}
