//! What is written in more than one place, held together: the refusals, the limits, the drawing.

use crate::common::{example, ran, root};
use std::fs;
use std::process::Command;

/// The number that the header defines as ZUL_name.
pub fn defined(header: &str, name: &str) -> u64 {
    let start = format!("#define ZUL_{name} ");
    let line = header.lines().find_map(|line| line.strip_prefix(&start));
    line.unwrap_or_else(|| panic!("{start}")).split_whitespace().next().unwrap().parse().unwrap()
}

#[test]
fn refusals() {
    ran(Command::new(root().join("bindings/refusals.sh")).arg("--check"));
}

#[test]
fn limits() {
    let header = fs::read_to_string(root().join("bindings/c/zulagbemi.h")).unwrap();
    let limits = [
        ("MAX_SUBTASKS", zulagbemi::MAX_SUBTASKS as u64),
        ("MAX_TIME", zulagbemi::MAX_TIME.into()),
        ("MAX_ARROWS", zulagbemi::MAX_ARROWS as u64),
        ("MAX_PROCESSORS", zulagbemi::MAX_PROCESSORS.into()),
        ("MAX_DEADLINE", zulagbemi::MAX_DEADLINE.into()),
        ("MAX_START", zulagbemi::MAX_START.into()),
        ("MAX_TEXT", zulagbemi::MAX_TEXT as u64),
        ("MAX_WRITTEN", zulagbemi::MAX_WRITTEN as u64),
        ("MAX_NEST", zulagbemi::MAX_NEST as u64),
        ("MAX_MEMBERS", zulagbemi::MAX_MEMBERS.into()),
        ("MAX_OPENERS", zulagbemi::MAX_OPENERS.into()),
    ];
    for (name, limit) in limits {
        assert_eq!(defined(&header, name), limit, "{name}");
    }
    assert_eq!(header.matches("#define ZUL_MAX_").count(), limits.len());
}

#[test]
fn drawing() {
    let stored = fs::read_to_string(root().join("docs/graham.svg")).unwrap();
    assert!(example("draw", &[], "") == stored, "docs/graham.svg is not what the example draw writes");
}
