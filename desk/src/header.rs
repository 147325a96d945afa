//! The C header's numbers, for tests that hold the desk to them.

/// The names and values of an enumeration, found by the words of the comment before it.
pub fn named(comment: &str) -> Vec<(&'static str, usize)> {
    let header = include_str!("../../include/tolmupung.h");
    let behind = header.split(comment).nth(1).unwrap_or_default();
    let list = behind.split('}').next().unwrap_or_default();
    let lines = list
        .lines()
        .filter_map(|line| line.trim().strip_prefix("TOLMUPUNG_")?.split_once(" = "));
    let digits = |value: &'static str| value.split(|letter: char| !letter.is_ascii_digit()).next();
    lines
        .filter_map(|(name, value)| Some((name, digits(value)?.parse().ok()?)))
        .collect()
}
