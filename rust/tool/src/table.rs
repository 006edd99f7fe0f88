//! A table's lines, their fields, and the whole numbers in them.

/// A line's numbers as the library is handed them.
#[derive(Debug, PartialEq, Eq)]
pub struct Row {
    pub x: u32,
    pub y: u32,
    pub z: i32,
}

/// A text's lines without their ends, LF or CRLF, and without the spaces around them.
pub fn lines(text: &[u8]) -> impl Iterator<Item = &[u8]> {
    text.split_inclusive(|&b| b == b'\n').map(|line| trimmed(without_end(line)))
}

/// A line without its end.
pub fn without_end(line: &[u8]) -> &[u8] {
    match line {
        [text @ .., b'\r', b'\n'] | [text @ .., b'\n'] => text,
        _ => line,
    }
}

fn trimmed(text: &[u8]) -> &[u8] {
    let start = text.iter().position(|&b| b != b' ').unwrap_or(text.len());
    let end = text.iter().rposition(|&b| b != b' ').map_or(start, |last| last + 1);
    &text[start..end]
}

/// Whether the first line of a table names its columns: it begins as a word does, and none of its fields is a whole number.
pub fn is_header(line: &[u8]) -> bool {
    let begins = match line {
        [b'#', ..] => true,
        [b'"', rest @ ..] => begins_with_letter(rest),
        _ => begins_with_letter(line),
    };
    begins && Fields::of(line).all(|field| whole(field).is_none())
}

fn begins_with_letter(text: &[u8]) -> bool {
    text.utf8_chunks().next().and_then(|chunk| chunk.valid().chars().next()).is_some_and(char::is_alphabetic)
}

/// The row of a line, or why it is none.
pub fn row(line: &[u8]) -> Result<Row, String> {
    let mut fields = Fields::of(line);
    let first: Vec<&[u8]> = fields.by_ref().take(3).collect();
    match (&first[..], fields.count()) {
        (&[x, y, z], 0) => Ok(Row { x: coordinate(number(x, "x")?), y: coordinate(number(y, "y")?), z: value(number(z, "z")?) }),
        ([_], _) => Err("1 field where x, y and z are needed".to_string()),
        (few, more) => Err(format!("{} fields where x, y and z are needed", few.len() + more)),
    }
}

fn number(field: &[u8], name: &str) -> Result<i64, String> {
    whole(field).ok_or_else(|| format!("{name} is no whole number"))
}

/// An optional sign and digits; a number too long for 64 bits as the nearest that has them.
pub fn whole(text: &[u8]) -> Option<i64> {
    let (sign, digits) = match text {
        [b'-', digits @ ..] => (-1, digits),
        [b'+', digits @ ..] => (1, digits),
        digits => (1, digits),
    };
    if digits.is_empty() || !digits.iter().all(u8::is_ascii_digit) {
        return None;
    }
    Some(digits.iter().fold(0, |n: i64, b| n.saturating_mul(10).saturating_add(sign * i64::from(b - b'0'))))
}

/// An x or y for the library, which refuses the greatest one: of a number that is negative or above 32 bits.
pub fn coordinate(n: i64) -> u32 {
    u32::try_from(n).unwrap_or(u32::MAX)
}

/// A z for the library, which refuses both ends of 32 bits.
pub fn value(n: i64) -> i32 {
    i32::try_from(n).unwrap_or(if n < 0 { i32::MIN } else { i32::MAX })
}

/// The fields of a line that has no spaces around it.
struct Fields<'a> {
    rest: Option<&'a [u8]>,
    parted_by: u8,
}

impl<'a> Fields<'a> {
    fn of(line: &'a [u8]) -> Fields<'a> {
        let parted_by = [b',', b';', b'\t'].into_iter().find(|mark| line.contains(mark)).unwrap_or(b' ');
        Fields { rest: Some(line), parted_by }
    }
}

impl<'a> Iterator for Fields<'a> {
    type Item = &'a [u8];

    fn next(&mut self) -> Option<&'a [u8]> {
        let rest = trimmed(self.rest?);
        let quoted = quoted_length(rest);
        let end = rest.iter().skip(quoted).position(|&b| b == self.parted_by).map(|at| quoted + at);
        self.rest = end.map(|end| &rest[end + 1..]);
        Some(unquoted(trimmed(&rest[..end.unwrap_or(rest.len())])))
    }
}

/// How many bytes at the front of a text stand in double quotes, the quotes among them.
fn quoted_length(text: &[u8]) -> usize {
    match text {
        [b'"', rest @ ..] => rest.iter().position(|&b| b == b'"').map_or(0, |at| at + 2),
        _ => 0,
    }
}

fn unquoted(field: &[u8]) -> &[u8] {
    match field {
        [b'"', inner @ .., b'"'] => inner,
        _ => field,
    }
}

#[cfg(test)]
mod tests {
    use super::*;

    fn fields(line: &str) -> Vec<String> {
        Fields::of(line.as_bytes()).map(|field| String::from_utf8_lossy(field).into_owned()).collect()
    }

    #[test]
    fn lines_end_in_lf_or_crlf() {
        let found: Vec<&[u8]> = lines(b" a \r\n\n\r\nb\rc\n  d").collect();
        assert_eq!(found, [&b"a"[..], b"", b"", b"b\rc", b"d"]);
    }

    #[test]
    fn fields_are_parted_by_one_mark() {
        assert_eq!(fields("1, 2 ,3"), ["1", "2", "3"]);
        assert_eq!(fields("1;2;3"), ["1", "2", "3"]);
        assert_eq!(fields("1\t 2\t3"), ["1", "2", "3"]);
        assert_eq!(fields("1   2 3"), ["1", "2", "3"]);
        assert_eq!(fields("1;2,5;3"), ["1;2", "5;3"]);
        assert_eq!(fields("1,,"), ["1", "", ""]);
        assert_eq!(fields(r#""1" , "2","-3""#), ["1", "2", "-3"]);
        assert_eq!(fields(r#""1,5",2"#), ["1,5", "2"]);
        assert_eq!(fields(r#""1,2"#), [r#""1"#, "2"]);
        assert_eq!(fields(r#""1" 2 "3""#), ["1", "2", "3"]);
    }

    #[test]
    fn rows_are_three_whole_numbers() {
        assert_eq!(row(b"10,20,-3"), Ok(Row { x: 10, y: 20, z: -3 }));
        assert_eq!(row(b"+010 20 +3"), Ok(Row { x: 10, y: 20, z: 3 }));
        assert_eq!(row(b"-1,4294967296,99999999999999999999"), Ok(Row { x: u32::MAX, y: u32::MAX, z: i32::MAX }));
        assert_eq!(row(b"-0,4294967295,-99999999999999999999"), Ok(Row { x: 0, y: u32::MAX, z: i32::MIN }));
        assert_eq!(row(b"1"), Err("1 field where x, y and z are needed".to_string()));
        assert_eq!(row(b"1,2,3,4"), Err("4 fields where x, y and z are needed".to_string()));
        assert_eq!(row(b"1,2.5,c"), Err("y is no whole number".to_string()));
        assert_eq!(row(b"1,2,"), Err("z is no whole number".to_string()));
    }

    #[test]
    fn a_header_has_no_whole_number() {
        for line in ["x,y,z", "# wear rest shift", "\"x\",\"y\",\"z\"", "Überlast;Ruhe;Wert"] {
            assert!(is_header(line.as_bytes()), "{line}");
        }
        for line in ["1,2,3", "x,2,3", "\"1\",y,z", "-,y,z", ",y,z", ""] {
            assert!(!is_header(line.as_bytes()), "{line}");
        }
    }
}
