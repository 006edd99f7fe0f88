//! The two axes: marks in steps, and beside them the same in cycles and in hours.
use super::frame::Frame;
use super::text::px;
use super::ticks;
use shepard::Grid;

/// The least room between two marks, in pixels.
const APART: f64 = 60.0;

const GREY: &str = "#666";

fn label(x: f64, y: f64, anchor: &str, colour: &str, text: &str) -> String {
    format!("<text x=\"{}\" y=\"{}\" text-anchor=\"{anchor}\" fill=\"{colour}\">{text}</text>\n", px(x), px(y))
}

fn mark(x: f64, y: f64, to: &str) -> String {
    format!("<path d=\"M{} {}{to}\" stroke=\"#222\"/>\n", px(x), px(y))
}

pub fn drawn(grid: &Grid, frame: &Frame) -> String {
    wear(grid, frame) + &rest(grid, frame)
}

fn wear(grid: &Grid, frame: &Frame) -> String {
    let bottom = frame.bottom();
    let heads = label(frame.left - 24.0, bottom + 20.0, "end", "#222", "steps") + &label(frame.left - 24.0, bottom + 36.0, "end", GREY, "cycles");
    let name = label(frame.left + frame.width / 2.0, bottom + 58.0, "middle", "#222", "wear, a step is 16 program/erase cycles");
    let marks = ticks::of_axis(grid.x0, grid.step_x, grid.columns, (frame.width / APART) as usize);
    let one = |x: u16| {
        let at = frame.across(x);
        mark(at, bottom, "v6")
            + &label(at, bottom + 20.0, "middle", "#222", &x.to_string())
            + &label(at, bottom + 36.0, "middle", GREY, &(16 * u32::from(x)).to_string())
    };
    heads + &name + &marks.into_iter().map(one).collect::<String>()
}

fn rest(grid: &Grid, frame: &Frame) -> String {
    let (steps, hours) = (frame.left - 10.0, frame.left - 48.0);
    let heads = label(steps, frame.top - 10.0, "end", "#222", "steps") + &label(hours, frame.top - 10.0, "end", GREY, "hours");
    let (left, middle) = (px(frame.left - 96.0), px(frame.top + frame.height / 2.0));
    let name = format!("<text text-anchor=\"middle\" transform=\"translate({left} {middle}) rotate(-90)\">rest, a step is 4 hours</text>\n");
    let marks = ticks::of_axis(grid.y0, grid.step_y, grid.rows, (frame.height / APART) as usize);
    let one = |y: u16| {
        let at = frame.down(y);
        mark(frame.left, at, "h-6")
            + &label(steps, at + 4.0, "end", "#222", &y.to_string())
            + &label(hours, at + 4.0, "end", GREY, &(4 * u32::from(y)).to_string())
    };
    heads + &name + &marks.into_iter().map(one).collect::<String>()
}
