//! Names, lines and counts as messages show them.
use shepard::Grid;
use std::ffi::OsStr;
use std::os::unix::ffi::OsStrExt;

/// The longest line that a message shows whole, in characters.
const LINE_MOST: usize = 80;

/// Bytes as text of one line: control characters and what is not UTF-8 byte by byte, as `\x1b`.
pub fn shown(bytes: &[u8]) -> String {
    characters(bytes).collect()
}

/// The same, cut where it is long.
pub fn shown_line(bytes: &[u8]) -> String {
    let most: Vec<char> = characters(bytes).take(LINE_MOST + 1).collect();
    if most.len() <= LINE_MOST {
        return most.into_iter().collect();
    }
    most.into_iter().take(LINE_MOST - 3).chain("...".chars()).collect()
}

fn characters(bytes: &[u8]) -> impl Iterator<Item = char> + '_ {
    bytes.utf8_chunks().flat_map(|chunk| {
        let valid = chunk.valid().chars().flat_map(|c| if c.is_control() { escaped(c.to_string().as_bytes()) } else { vec![c] });
        valid.chain(escaped(chunk.invalid()))
    })
}

fn escaped(bytes: &[u8]) -> Vec<char> {
    bytes.iter().flat_map(|b| format!("\\x{b:02x}").chars().collect::<Vec<char>>()).collect()
}

/// A file's name, or another word of the command line, in a message.
pub fn name(word: &OsStr) -> String {
    shown(word.as_bytes())
}

/// `1 point`, `2 points`.
pub fn count(n: usize, one: &str) -> String {
    if n == 1 {
        format!("1 {one}")
    } else {
        format!("{n} {one}s")
    }
}

/// `a survey of 2 points`.
pub fn survey_of(points: usize) -> String {
    if points == 0 {
        "a survey of no points".to_string()
    } else {
        format!("a survey of {}", count(points, "point"))
    }
}

/// `64 columns and 64 rows`.
pub fn size(grid: &Grid) -> String {
    format!("{} and {}", count(grid.columns.into(), "column"), count(grid.rows.into(), "row"))
}

/// A grid's six numbers as they are given in a command.
pub fn six(grid: &Grid) -> String {
    format!("{},{},{},{},{},{}", grid.x0, grid.y0, grid.step_x, grid.step_y, grid.columns, grid.rows)
}

#[cfg(test)]
mod tests {
    use super::*;

    #[test]
    fn what_cannot_be_shown_is_escaped() {
        assert_eq!(shown(b"a\tb\x1b[1m"), r"a\x09b\x1b[1m");
        assert_eq!(shown("Maß\u{9b}".as_bytes()), r"Maß\xc2\x9b");
        assert_eq!(shown(b"\xff1\xe2\x82"), r"\xff1\xe2\x82");
    }

    #[test]
    fn a_long_line_is_cut() {
        assert_eq!(shown_line(&[b'a'; 80]), "a".repeat(80));
        assert_eq!(shown_line(&[b'a'; 81]), "a".repeat(77) + "...");
        assert_eq!(shown_line(&[0; 21]), r"\x00".repeat(19) + r"\...");
    }
}
