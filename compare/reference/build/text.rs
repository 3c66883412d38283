//! Replacing and cutting text. A pattern that is not found exactly as often
//! as expected stops the build.

/// `old` is found exactly `times` times; each becomes `new`.
pub struct Edit {
    pub times: usize,
    pub old: &'static str,
    pub new: &'static str,
}

pub fn replace(file: &str, text: &str, edit: &Edit) -> String {
    let found = text.matches(edit.old).count();
    assert!(
        found == edit.times,
        "{file}: found {found} times, expected {}:\n{}",
        edit.times,
        edit.old
    );
    text.replace(edit.old, edit.new)
}

pub fn replace_all(file: &str, text: &str, edits: &[Edit]) -> String {
    edits
        .iter()
        .fold(text.to_string(), |text, edit| replace(file, &text, edit))
}

/// The text without its leading `//!` lines, which an included file may not have.
pub fn without_head(text: &str) -> String {
    text.lines()
        .skip_while(|line| line.starts_with("//!"))
        .map(|line| format!("{line}\n"))
        .collect()
}

/// The item whose first line begins with `start`, with the attributes and
/// comments above it: up to the line that closes it at the same indent, or
/// that one line where it ends in a semicolon.
pub fn item(file: &str, text: &str, start: &str) -> String {
    let (first, last) = extent(file, text, start);
    text.lines()
        .skip(first)
        .take(last + 1 - first)
        .map(|line| format!("{line}\n"))
        .collect()
}

/// The text without that item.
pub fn without_item(file: &str, text: &str, start: &str) -> String {
    let (first, last) = extent(file, text, start);
    text.lines()
        .enumerate()
        .filter(|(i, _)| *i < first || *i > last)
        .map(|(_, line)| format!("{line}\n"))
        .collect()
}

fn extent(file: &str, text: &str, start: &str) -> (usize, usize) {
    let lines: Vec<&str> = text.lines().collect();
    let at: Vec<usize> = (0..lines.len())
        .filter(|&i| lines[i].starts_with(start))
        .collect();
    assert!(
        at.len() == 1,
        "{file}: {} lines begin with {start:?}, expected 1",
        at.len()
    );
    let head = at[0];
    let above =
        |line: &str| line.trim_start().starts_with("///") || line.trim_start().starts_with("#[");
    let first = (0..=head)
        .rev()
        .find(|&i| i == 0 || !above(lines[i - 1]))
        .expect("0 is tried");
    if lines[head].ends_with(';') {
        return (first, head);
    }
    let indent = start.len() - start.trim_start().len();
    let close = format!("{}}}", " ".repeat(indent));
    let last = (head..lines.len())
        .find(|&i| lines[i] == close)
        .unwrap_or_else(|| panic!("{file}: no end of {start:?}"));
    (first, last)
}
