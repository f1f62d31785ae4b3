//! Why the query of a file was refused, and what to do: a line of tools/refusals.txt, which ./turns and tools/wood take too.

const REASONS: &str = include_str!("../../../../tools/refusals.txt");

/// The reason of a number.
pub fn reason(number: u32) -> &'static str {
    let start = format!("{number} ");
    let mut reasons = REASONS.lines().filter_map(|line| line.strip_prefix(&start[..]));
    reasons.next().unwrap_or("a number that this program does not know: the printer is newer")
}
