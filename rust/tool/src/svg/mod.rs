//! The map of a grid as an SVG picture: cells in colour, the measured points on them, axes and a colour bar.
mod axes;
mod bar;
mod cells;
mod colours;
mod frame;
mod points;
mod room;
mod text;
mod ticks;

use colours::Scale;
use frame::Frame;

/// What a cell's number is.
pub enum Of {
    /// The shift of the read level, in 256ths of a register step.
    Answer,
    /// The distance to the nearest measured point, in 256ths of a step.
    Support,
}

/// What is drawn: the cells row by row, y ascending, x ascending within a row.
pub struct Map<'a> {
    pub title: &'a str,
    pub grid: shepard::Grid,
    pub cells: &'a [i64],
    pub points: &'a [shepard::Point],
    pub of: Of,
}

/// The picture as a whole SVG file.
pub fn svg(map: &Map) -> String {
    let frame = Frame::of(&map.grid);
    let scale = Scale::of(map.cells, &map.of);
    let (points, note) = points::drawn(map.points, &frame);
    let (width, height) = (text::px(frame.picture_width()), text::px(frame.picture_height()));
    let parts = [
        head(map.title, &width, &height),
        text::headline(map.title, frame.picture_width()),
        text::note(&format!("{} and {}{note}", counted(map.grid.columns, "column"), counted(map.grid.rows, "row"))),
        cells::drawn(&map.grid, map.cells, &frame, &scale),
        frame.border(),
        points,
        axes::drawn(&map.grid, &frame),
        bar::drawn(&frame, &scale, &map.of),
    ];
    parts.concat() + "</svg>\n"
}

fn head(title: &str, width: &str, height: &str) -> String {
    format!(
        "<?xml version=\"1.0\" encoding=\"UTF-8\"?>\n\
         <svg xmlns=\"http://www.w3.org/2000/svg\" xmlns:xlink=\"http://www.w3.org/1999/xlink\" width=\"{width}\" height=\"{height}\" \
         viewBox=\"0 0 {width} {height}\" font-family=\"DejaVu Sans, Verdana, Arial, sans-serif\" font-size=\"12\" fill=\"#222\">\n\
         <title>{}</title>\n<rect width=\"{width}\" height=\"{height}\" fill=\"#fff\"/>\n",
        text::escape(title)
    )
}

/// A number and what it counts.
fn counted(n: impl Into<u64>, what: &str) -> String {
    let n = n.into();
    format!("{n} {what}{}", if n == 1 { "" } else { "s" })
}

#[cfg(test)]
mod tests;
