//! The cells, each with its location and its number as a tooltip.
use super::colours::{Scale, LAST};
use super::frame::Frame;
use crate::steps::steps;
use shepard::Grid;

/// All cells in coordinates of their own, in which a cell is a line one long and one wide from (column, row); those of one colour stand together.
pub fn drawn(grid: &Grid, cells: &[i64], frame: &Frame, scale: &Scale) -> String {
    let mut by_level = vec![String::new(); LAST + 1];
    for (i, &number) in cells.iter().enumerate() {
        let (column, row) = (i % usize::from(grid.columns), i / usize::from(grid.columns));
        by_level[scale.level(number)] += &cell(grid, column, row, number);
    }
    let (wide, high) = (frame.width / f64::from(grid.columns), frame.height / f64::from(grid.rows));
    let matrix = format!("{wide} 0 0 {} {} {}", -high, frame.left, frame.bottom() - high / 2.0);
    let colours = by_level.iter().enumerate().filter(|(_, cells)| !cells.is_empty());
    let groups: String = colours.map(|(level, cells)| format!("<g stroke=\"{}\">\n{cells}\n</g>\n", scale.colour(level))).collect();
    format!("<g transform=\"matrix({matrix})\" shape-rendering=\"crispEdges\">\n{groups}</g>\n")
}

fn cell(grid: &Grid, column: usize, row: usize, number: i64) -> String {
    let x = usize::from(grid.x0) + column * usize::from(grid.step_x);
    let y = usize::from(grid.y0) + row * usize::from(grid.step_y);
    let title = format!("{}\nx {x}: {} cycles\ny {y}: {} h", steps(number), 16 * x, 4 * y);
    format!("<path d=\"M{column} {row}h1\"><title>{title}</title></path>")
}
