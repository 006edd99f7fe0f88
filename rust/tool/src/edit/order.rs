//! What a line asks for.
use crate::{table, text, words};
use shepard::Grid;
use std::ffi::OsStr;
use std::os::unix::ffi::OsStrExt;

#[derive(Debug, PartialEq, Eq)]
pub enum Order<'a> {
    Add(u32, u32, i32),
    Change(u32, u32, i32),
    Drop(u32, u32),
    Clear,
    Load(&'a OsStr),
    Look(u32, u32),
    List,
    ShowGrid,
    SetGrid(Grid),
    Undo,
    Write(Option<&'a OsStr>),
    Help,
    Quit,
}

/// What a line asks for, or why that is not understood.
pub fn order(line: &[u8]) -> Result<Order<'_>, String> {
    let (name, rest) = first_word(line);
    match name {
        b"add" => point("add", rest).map(|(x, y, z)| Order::Add(x, y, z)),
        b"change" => point("change", rest).map(|(x, y, z)| Order::Change(x, y, z)),
        b"drop" => location("drop", rest).map(|(x, y)| Order::Drop(x, y)),
        b"look" => location("look", rest).map(|(x, y)| Order::Look(x, y)),
        b"load" if rest.is_empty() => Err("load needs PATH".to_string()),
        b"load" => Ok(Order::Load(OsStr::from_bytes(rest))),
        b"write" => Ok(Order::Write(Some(OsStr::from_bytes(rest)).filter(|path| !path.is_empty()))),
        b"grid" if rest.is_empty() => Ok(Order::ShowGrid),
        b"grid" => grid(rest).map(Order::SetGrid),
        b"clear" => alone(Order::Clear, rest),
        b"list" => alone(Order::List, rest),
        b"undo" => alone(Order::Undo, rest),
        b"help" => alone(Order::Help, rest),
        b"quit" => alone(Order::Quit, rest),
        _ => Err(format!("no command '{}'", text::shown_line(name))),
    }
}

fn is_between(byte: &u8) -> bool {
    matches!(byte, b' ' | b',' | b'\t')
}

/// The first word, and what stands behind it.
fn first_word(line: &[u8]) -> (&[u8], &[u8]) {
    let end = line.iter().position(is_between).unwrap_or(line.len());
    let rest = &line[end..];
    let start = rest.iter().position(|byte| !is_between(byte)).unwrap_or(rest.len());
    (&line[..end], &rest[start..])
}

fn word_list(rest: &[u8]) -> Vec<&[u8]> {
    rest.split(is_between).filter(|word| !word.is_empty()).collect()
}

fn alone<'a>(order: Order<'a>, rest: &[u8]) -> Result<Order<'a>, String> {
    match word_list(rest).first() {
        Some(word) => Err(format!("'{}' is one word too many", text::shown_line(word))),
        None => Ok(order),
    }
}

fn point(name: &str, rest: &[u8]) -> Result<(u32, u32, i32), String> {
    let [x, y, z] = numbers(name, "X Y Z", rest)?;
    Ok((table::coordinate(x), table::coordinate(y), table::value(z)))
}

fn location(name: &str, rest: &[u8]) -> Result<(u32, u32), String> {
    let [x, y] = numbers(name, "X Y", rest)?;
    Ok((table::coordinate(x), table::coordinate(y)))
}

fn grid(rest: &[u8]) -> Result<Grid, String> {
    let _: [i64; 6] = numbers("grid", "X0,Y0,SX,SY,C,R", rest)?;
    words::grid(word_list(rest).into_iter()).ok_or_else(|| words::no_grid(rest))
}

/// As many whole numbers as are needed, and nothing behind them.
fn numbers<const N: usize>(name: &str, needed: &str, rest: &[u8]) -> Result<[i64; N], String> {
    let given: [&[u8]; N] = word_list(rest).try_into().map_err(|_| format!("{name} needs {needed}"))?;
    match given.iter().find(|word| table::whole(word).is_none()) {
        Some(word) => Err(format!("'{}' is no whole number", text::shown_line(word))),
        None => Ok(given.map(|word| table::whole(word).unwrap_or(0))),
    }
}

#[cfg(test)]
mod tests {
    use super::*;

    #[test]
    fn words_are_parted_by_spaces_commas_and_tabs() {
        for line in ["add 10,20,-3", "add 10 20 -3", "add\t10 , 20\t-3", "add,10,20,-3"] {
            assert_eq!(order(line.as_bytes()), Ok(Order::Add(10, 20, -3)), "{line}");
        }
        assert_eq!(order(b"drop -1 4096"), Ok(Order::Drop(u32::MAX, 4096)));
        assert_eq!(order(b"load  a file, b.rls"), Ok(Order::Load(OsStr::new("a file, b.rls"))));
        assert_eq!(order(b"write"), Ok(Order::Write(None)));
        assert_eq!(order(b"grid"), Ok(Order::ShowGrid));
        assert_eq!(order(b"grid 0 0 65,65 64 1"), Ok(Order::SetGrid(Grid { x0: 0, y0: 0, step_x: 65, step_y: 65, columns: 64, rows: 1 })));
    }

    #[test]
    fn what_is_not_understood_is_named() {
        for (line, why) in [
            ("add 1 2", "add needs X Y Z"),
            ("add 1 2 3 4", "add needs X Y Z"),
            ("drop", "drop needs X Y"),
            ("look 1 a", "'a' is no whole number"),
            ("load", "load needs PATH"),
            ("grid 1", "grid needs X0,Y0,SX,SY,C,R"),
            ("grid 0,0,65,65,64,x", "'x' is no whole number"),
            ("grid 0,0,65,65,64,-1", "'0,0,65,65,64,-1' is no grid: X0,Y0,SX,SY,C,R, six whole numbers"),
            ("undo 2", "'2' is one word too many"),
            ("save", "no command 'save'"),
        ] {
            assert_eq!(order(line.as_bytes()), Err(why.to_string()));
        }
    }
}
