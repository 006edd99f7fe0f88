//! The colour bar: which colour is which number.
use super::colours::{Scale, LAST};
use super::frame::Frame;
use super::text::px;
use super::{ticks, Of};
use crate::steps::steps;

const WIDTH: f64 = 16.0;

/// The least room between two marks, and between an end and a mark, in pixels.
const APART: f64 = 56.0;
const FROM_END: f64 = 15.0;

pub fn drawn(frame: &Frame, scale: &Scale, of: &Of) -> String {
    let left = frame.right() + 20.0;
    let names = match of {
        Of::Answer => ["read-level shift,", "register steps"],
        Of::Support => ["distance to the", "nearest point, steps"],
    };
    let marks: String = marks(frame.height, scale).into_iter().map(|(up, number)| mark(left + WIDTH, frame.bottom() - up, number)).collect();
    let name = |(line, up): (&str, f64)| format!("<text x=\"{}\" y=\"{}\">{line}</text>\n", px(left), px(frame.top - up));
    colours(left, frame, scale) + &marks + &names.into_iter().zip([27.0, 12.0]).map(name).collect::<String>()
}

/// The bar itself, of one colour where the scale has one number only.
fn colours(left: f64, frame: &Frame, scale: &Scale) -> String {
    let place = format!("x=\"{}\" y=\"{}\" width=\"{WIDTH}\" height=\"{}\" stroke=\"#222\"", px(left), px(frame.top), px(frame.height));
    if scale.least == scale.greatest {
        return format!("<rect {place} fill=\"{}\"/>\n", scale.colour(LAST / 2));
    }
    let gradient = format!("<linearGradient id=\"scale\" x1=\"0\" y1=\"1\" x2=\"0\" y2=\"0\">{}</linearGradient>", scale.stops());
    format!("<defs>{gradient}</defs>\n<rect {place} fill=\"url(#scale)\"/>\n")
}

/// Each mark's height above the bottom, and its number: the two ends, and round numbers that are not too near to them.
fn marks(height: f64, scale: &Scale) -> Vec<(f64, i64)> {
    let (least, greatest) = (scale.least, scale.greatest);
    if least == greatest {
        return vec![(height / 2.0, least)];
    }
    let up = |n: i64| (n - least) as f64 / (greatest - least) as f64 * height;
    let between = ticks::of_bar(least, greatest, (height / APART) as usize).into_iter().map(|n| (up(n), n));
    let clear = between.filter(|&(at, _)| FROM_END < at && at < height - FROM_END);
    [(0.0, least)].into_iter().chain(clear).chain([(height, greatest)]).collect()
}

fn mark(x: f64, y: f64, number: i64) -> String {
    let (x, text) = (px(x), format!("<text x=\"{}\" y=\"{}\">{}</text>\n", px(x + 8.0), px(y + 4.0), steps(number)));
    format!("<path d=\"M{x} {}h5\" stroke=\"#222\"/>\n{text}", px(y))
}
