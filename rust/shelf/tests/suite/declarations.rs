//! The declarations of the calls: those of the engine's own source, where a
//! slice crosses as a pointer and a count, and those that docs/FORMAT.md prints.
//! Nothing else holds them together: the linker looks at names only. And the
//! limits, which are those of the engine's own source.

use crate::common::{between, FORMAT};
use shelf::limits;

const ENGINE: &str = include_str!("../../../../crates/engine/src/lib.rt");
const LIMITS: &str = include_str!("../../../../crates/sets/src/concept_set.rt");
const WRAPPER: &str = include_str!("../../src/ffi.rs");

/// The text without its white space, and without a comma behind the last of a
/// list.
fn packed(text: &str) -> String {
    let packed: String = text.split_whitespace().collect();
    packed.replace(",)", ")")
}

/// An argument as C takes it.
fn crossing(argument: &str) -> String {
    let (name, kind) = argument.split_once(':').expect("an argument has a type");
    let slice = |start| kind.strip_prefix(start)?.strip_suffix(']');
    if let Some(element) = slice("&mut[") {
        format!("{name}:*mut{element},{name}_len:usize")
    } else if let Some(element) = slice("&[") {
        format!("{name}:*const{element},{name}_len:usize")
    } else {
        assert_eq!(kind, "usize", "{name}");
        argument.to_owned()
    }
}

/// What the engine exports, as Rust is to declare it.
fn exported() -> Vec<String> {
    let source = packed(ENGINE);
    let signatures = between(&source, "#[unsafe(no_mangle)]pubextern\"C\"fn", "->u64");
    let declare = |signature: &str| {
        let signature = signature.strip_suffix(')').expect("arguments end");
        let (name, arguments) = signature.split_once('(').expect("arguments begin");
        let arguments: Vec<String> = arguments.split(',').map(crossing).collect();
        format!("fn{name}({})->u64", arguments.join(","))
    };
    signatures.into_iter().map(declare).collect()
}

/// What a text declares in its blocks of C functions.
fn declared(text: &str) -> Vec<String> {
    let text = packed(text);
    let blocks = between(&text, "unsafeextern\"C\"{", "}").concat();
    blocks.split_terminator(';').map(str::to_owned).collect()
}

/// There are five calls, and the wrapper and the document declare each as the
/// engine exports it.
#[test]
fn the_calls_are_declared_as_they_are_exported() {
    let exported = exported();
    let names: Vec<&str> = exported
        .iter()
        .map(|f| f.split('(').next().unwrap())
        .collect();
    let calls = [
        "fnshelf_compile",
        "fnshelf_classify",
        "fnshelf_evaluate",
        "fnshelf_mark",
        "fnshelf_convert",
    ];
    assert_eq!(names, calls);
    assert_eq!(declared(WRAPPER), exported);
    assert_eq!(declared(FORMAT), exported);
}

/// The value of a limit in the engine's source: a product of numbers and of
/// other limits.
fn stated(name: &str) -> usize {
    let found = between(LIMITS, &format!("const {name}: usize ="), ";");
    let [value] = found[..] else {
        panic!("{name} stands there {} times", found.len());
    };
    let factor = |factor: &str| match factor.trim().strip_prefix("ConceptSet::") {
        Some(other) => stated(other),
        None => factor.trim().replace('_', "").parse().expect("a number"),
    };
    value.split('*').map(factor).product()
}

/// Every limit of the wrapper is the engine's.
#[test]
fn the_limits_are_those_of_the_engine() {
    let limits = [
        ("TEXT", limits::TEXT_BYTES),
        ("WORD_BYTES", limits::WORD_BYTES),
        ("DEPTH", limits::DEPTH),
        ("LEAST", limits::LEAST_NUMBERS),
        ("NUMBERS", limits::NUMBERS),
        ("ROLES", limits::ROLES),
        ("ROWS", limits::ROWS),
        ("SET_WORDS", limits::SET_WORDS),
        ("TABLE", limits::TABLE_WORDS),
        ("ANSWER", limits::ANSWER_WORDS),
        ("SHEETS", limits::SHEETS),
        ("SCORE", limits::SCORE_NUMBERS),
    ];
    for (name, limit) in limits {
        assert_eq!(limit, stated(name), "{name}");
    }
}
