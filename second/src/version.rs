//! The version that the library says it is: the one of its header.

const HEADER: &str = include_str!("../../include/scanboot.h");

fn number(part: &str) -> u64 {
    let name = format!("#define SCANBOOT_VERSION_{part} ");
    let text = HEADER.lines().find_map(|line| line.strip_prefix(name.as_str()));
    text.and_then(|t| t.trim().parse().ok()).expect("a version in the header")
}

/// 65536 times the major number, 256 times the minor one, and the patch number.
pub fn version() -> u64 {
    65_536 * number("MAJOR") + 256 * number("MINOR") + number("PATCH")
}
