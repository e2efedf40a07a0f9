//! `include/lens.h` and this crate have the same numbers.

use lens::{raw, Refusal, ALLOWANCE_MAX};
use std::collections::BTreeMap;

/// The header's constants, without `LENS_`.
fn constants() -> BTreeMap<String, u64> {
    let path = concat!(env!("CARGO_MANIFEST_DIR"), "/../include/lens.h");
    let header = std::fs::read_to_string(path).unwrap();
    let mut constants = BTreeMap::new();
    for line in header.lines() {
        let Some(definition) = line.strip_prefix("#define LENS_") else { continue };
        let mut words = definition.split_whitespace();
        if let (Some(name), Some(Ok(number))) = (words.next(), words.next().map(|word| word.trim_end_matches('u').parse())) {
            constants.insert(name.to_string(), number);
        }
    }
    constants
}

#[test]
fn the_header_has_the_same_numbers() {
    let mut wanted: BTreeMap<String, u64> =
        Refusal::ALL.iter().map(|refusal| (refusal.name().to_string(), u64::from(refusal.number()))).collect();
    assert!(!wanted.is_empty());
    let sizes = [
        ("GET_OUT", raw::GET_OUT),
        ("PUT_OUT", raw::PUT_OUT),
        ("SHEET_OUT", raw::SHEET_OUT),
        ("TEXT_OUT", raw::TEXT_OUT),
        ("JSON_OUT", raw::JSON_OUT),
        ("VALUE_OUT", raw::VALUE_OUT),
        ("SCRATCH", raw::SCRATCH),
        ("STARTS_MAX", raw::STARTS_MAX),
        ("CHAIN_MAX", raw::CHAIN_MAX),
        ("STACK", raw::STACK),
        ("ALLOWANCE_MAX", ALLOWANCE_MAX as usize),
    ];
    wanted.extend(sizes.map(|(name, size)| (name.to_string(), size as u64)));
    wanted.insert("OK".to_string(), 0);
    wanted.insert("VERSION".to_string(), raw::VERSION);
    assert_eq!(constants(), wanted);
}

#[test]
fn the_version_is_one() {
    let [first, second, third] =
        [env!("CARGO_PKG_VERSION_MAJOR"), env!("CARGO_PKG_VERSION_MINOR"), env!("CARGO_PKG_VERSION_PATCH")]
            .map(|part| part.parse::<u64>().unwrap());
    assert_eq!(raw::VERSION, 10_000 * first + 100 * second + third);
    assert_eq!(raw::version(), raw::VERSION);
}
