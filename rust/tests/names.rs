//! Every name of the C header's lists stands in src/names.rs with the same number, and no other; every entry stands in src/entries.rs
//! with the same operands. A length that has not the same width on both sides would be read wrongly on a target of 32 bits.

const HEADER: &str = include_str!("../../include/am33c93a.h");
const NAMES: &str = include_str!("../src/names.rs");
const ENTRIES: &str = include_str!("../src/entries.rs");

fn between(text: &'static str, start: &str, end: &str) -> &'static str {
    let rest = text.split_once(start).unwrap_or_else(|| panic!("no {start:?}")).1;
    rest.split_once(end).unwrap_or_else(|| panic!("no {end:?} after {start:?}")).0
}

fn number(text: &str) -> Option<u32> {
    let digits = text.split([',', ';', ' ']).next()?;
    match digits.strip_prefix("0x") {
        Some(hex) => u32::from_str_radix(hex, 16).ok(),
        None => digits.parse().ok(),
    }
}

/// The lines `START NAME = NUMBER`, in order.
fn listed(text: &str, start: &str) -> Vec<(String, u32)> {
    let line = |line: &str| {
        let (name, rest) = line.trim().strip_prefix(start)?.split_once(" = ")?;
        Some((name.split(':').next()?.to_string(), number(rest)?))
    };
    text.lines().filter_map(line).collect()
}

#[test]
fn the_header_and_the_wrapper_say_the_same() {
    for (comment, prefix, module, length) in [
        ("/* Auxiliary status. */", "AM33C93A_AUX_", "auxiliary", 6),
        ("/* Register addresses. */", "AM33C93A_", "register", 22),
        ("/* Commands;", "AM33C93A_", "command", 13),
        ("/* Codes of SCSI status.", "AM33C93A_CODE_", "code", 18),
        ("/* The value of am33c93a_lines.", "AM33C93A_LINES_", "line", 7),
    ] {
        let header = listed(between(HEADER, comment, "};"), prefix);
        let here = listed(between(NAMES, &format!("pub mod {module} {{"), "\n}"), "pub const ");
        assert_eq!(header, here, "{module}");
        assert_eq!(header.len(), length, "{module}");
    }
}

/// An operand of C in Rust's words.
fn operand(c: &str) -> String {
    let (kind, name) = c.rsplit_once([' ', '*']).unwrap_or_else(|| panic!("{c:?}"));
    let kind = match (kind.trim(), c.contains('*')) {
        ("uint8_t", true) => "*mut u8",
        ("const uint8_t", true) => "*const u8",
        ("uint64_t", false) => "u64",
        ("uint32_t", false) => "u32",
        _ => panic!("{c:?}"),
    };
    format!("{name}: {kind}")
}

/// A prototype of the header as Rust declares it; none for am33c93a_image_length, which the wrapper has as a constant.
fn declared(line: &str) -> Option<String> {
    let (name, operands) = line.strip_prefix("uint32_t ")?.strip_suffix(");")?.split_once('(')?;
    let operands: Vec<String> = operands.split(", ").filter(|c| *c != "void").map(operand).collect();
    (!operands.is_empty()).then(|| format!("fn {name}({}) -> u32;", operands.join(", ")))
}

#[test]
fn the_header_and_the_wrapper_declare_the_same_entries() {
    let header: Vec<String> = HEADER.lines().filter_map(declared).collect();
    let here: Vec<&str> = ENTRIES.lines().filter_map(|line| line.trim().strip_prefix("pub(crate) ")).collect();
    assert_eq!(header, here);
    assert_eq!(header.len(), 11);
    assert!(HEADER.contains("#define AM33C93A_IMAGE_LENGTH 54\n") && am33c93a::IMAGE_LENGTH == 54);
}
