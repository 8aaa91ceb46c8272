//! The numbers, names and words of `include/winchbarn.h` beside those of the wrapper.

use std::collections::BTreeMap;

use winchbarn::{
    Kind, LINE_LIMIT, LIST_LIMIT, NUMBER_LIMIT, Refusal, SELECTION_LIMIT, Shape, TEXT_LIMIT, stack,
};

const HEADER: &str = include_str!("../../../include/winchbarn.h");

/// The header's constants, by their names without `WINCHBARN_`.
fn constants() -> BTreeMap<&'static str, usize> {
    let constant = |line: &'static str| {
        let line = line.trim().strip_prefix("#define ").unwrap_or(line.trim());
        let (name, rest) = line.strip_prefix("WINCHBARN_")?.split_once(' ')?;
        let number = rest.strip_prefix("= ").unwrap_or(rest);
        let digits = number.split([',', ' ']).next()?;
        Some((name, digits.parse().ok()?))
    };
    HEADER.lines().filter_map(constant).collect()
}

/// `InsertChar` as `INSERT_CHAR`.
fn in_capitals(name: &str) -> String {
    let mut capitals = String::new();
    for c in name.chars() {
        if c.is_uppercase() && !capitals.is_empty() {
            capitals.push('_');
        }
        capitals.push(c.to_ascii_uppercase());
    }
    capitals
}

fn refusals() -> impl Iterator<Item = Refusal> {
    (1..).map_while(|number| Refusal::of(number, 0))
}

#[test]
fn the_versions_agree() {
    let constants = constants();
    let parts = ["VERSION_MAJOR", "VERSION_MINOR", "VERSION_PATCH"];
    let version = parts.map(|part| constants[part].to_string()).join(".");
    assert_eq!(version, env!("CARGO_PKG_VERSION"));
}

/// The header has these constants, and no others in whose names the part stands.
fn expect_all(part: &str, expected: &[(&str, usize)]) {
    let constants = constants();
    for (name, number) in expected {
        assert_eq!(constants[name], *number, "{name}");
    }
    let named = constants.keys().filter(|name| name.contains(part));
    assert_eq!(named.count(), expected.len());
}

#[test]
fn the_limits_agree() {
    let limits = [
        ("TEXT_LIMIT", TEXT_LIMIT),
        ("LIST_LIMIT", LIST_LIMIT),
        ("NUMBER_LIMIT", NUMBER_LIMIT as usize),
        ("LINE_LIMIT", LINE_LIMIT),
        ("SELECTION_LIMIT", SELECTION_LIMIT),
    ];
    expect_all("_LIMIT", &limits);
}

#[test]
fn the_kinds_agree() {
    let constants = constants();
    for kind in Kind::ALL {
        let name = in_capitals(&format!("{kind:?}"));
        assert_eq!(constants[name.as_str()], kind.number() as usize, "{name}");
    }
    for shape in Shape::ALL {
        let name = in_capitals(&format!("Select{shape:?}"));
        assert_eq!(constants[name.as_str()], shape.number() as usize, "{name}");
    }
}

#[test]
fn the_refusals_agree() {
    let constants = constants();
    for refusal in refusals() {
        let name = in_capitals(refusal.name());
        let number = refusal.number() as usize;
        assert_eq!(constants[name.as_str()], number, "{name}");
        for words in [refusal.name(), refusal.meaning()] {
            let case = format!("case WINCHBARN_{name}:\n        return \"{words}\";");
            assert!(HEADER.contains(&case), "{case}");
        }
    }
    assert_eq!(refusals().count(), 10);
}

#[test]
fn the_header_has_no_other_numbers() {
    let counted = ["_LIMIT", "STACK_", "VERSION_"];
    let others = constants()
        .into_keys()
        .filter(|name| !counted.iter().any(|part| name.contains(part)));
    assert_eq!(
        others.count(),
        Kind::ALL.len() + Shape::ALL.len() + refusals().count()
    );
}

#[test]
fn the_stacks_agree() {
    let stacks = [
        ("STACK_RUN_SCRIPT", stack::RUN_SCRIPT),
        ("STACK_APPLY_EDIT", stack::APPLY_EDIT),
        ("STACK_APPLY_EDIT_IN", stack::APPLY_EDIT_IN),
        ("STACK_APPLY_FRAME", stack::APPLY_FRAME),
        ("STACK_WRITE_EDIT", stack::WRITE_EDIT),
        ("STACK_WRITE_TEXT", stack::WRITE_TEXT),
        ("STACK_WRITE_MARK", stack::WRITE_MARK),
        ("STACK_READ_EDIT", stack::READ_EDIT),
        ("STACK_READ_TEXT", stack::READ_TEXT),
        ("STACK_READ_MARK", stack::READ_MARK),
        ("STACK_UNDOABLE", stack::UNDOABLE),
        ("STACK_SET_CURSOR", stack::SET_CURSOR),
        ("STACK_CLAMP_POSITION", stack::CLAMP_POSITION),
        ("STACK_BOX_FIT", stack::BOX_FIT),
        ("STACK_SHIFT_POSITION", stack::SHIFT_POSITION),
        ("STACK_SHIFT_SEL", stack::SHIFT_SEL),
        ("STACK_MERGE_OVERLAPPING", stack::MERGE_OVERLAPPING),
        ("STACK_SEL", stack::SEL),
        ("STACK_SELECTION", stack::SELECTION),
        ("STACK_ROW_SPAN", stack::ROW_SPAN),
        ("STACK_DECODE", stack::DECODE),
        ("STACK_ENCODE", stack::ENCODE),
    ];
    expect_all("STACK_", &stacks);
}
