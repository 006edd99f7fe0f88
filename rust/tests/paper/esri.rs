//! The Esri ASCII grid in Rust, written from document 02 alone: the text of a grid's cells, its cells read back, and its refusals.
use super::{grid_refusal, Point};
use shepard::Grid;

/// 256ths as a decimal number. f64 holds every 256th, and none has more than eight decimals, so nothing is rounded.
fn decimal(cell: i16) -> String {
    format!("{:.8}", f64::from(cell) / 256.0)
}

/// The text of a grid and its cells, which go row by row, y ascending.
pub fn text(g: &Grid, cells: &[i16]) -> String {
    let mut lines = vec![
        format!("ncols {}", g.columns),
        format!("nrows {}", g.rows),
        format!("xllcenter {}", g.x0),
        format!("yllcenter {}", g.y0),
        format!("cellsize {}", g.step_x),
        "NODATA_value -9999".to_string(),
    ];
    for row in cells.chunks(usize::from(g.columns)).rev() {
        lines.push(row.iter().map(|&cell| decimal(cell)).collect::<Vec<_>>().join(" "));
    }
    lines.join("\n") + "\n"
}

/// The cells of a text in 256ths, row by row, y ascending.
pub fn cells(text: &str) -> Vec<f64> {
    let mut rows: Vec<&str> = text.lines().skip(6).collect();
    rows.reverse();
    rows.iter().flat_map(|row| row.split(' ')).map(|cell| 256.0 * cell.parse::<f64>().unwrap()).collect()
}

/// 7, 16 or 6.
pub fn refusal(points: &[Point], g: &Grid) -> u8 {
    match grid_refusal(points, g) {
        7 => 7,
        _ if g.step_x != g.step_y => 16,
        no => no,
    }
}
