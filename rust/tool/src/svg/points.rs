//! The measured points: dots with their values as text, as far as there is room.
use super::counted;
use super::frame::Frame;
use super::room::{self, missing, Dot, Place};
use super::text::px;
use shepard::Point;

/// Sizes of the values' text, in pixels: the first in which every value has room beside its dot is taken, or else the last.
const SIZES: [f64; 5] = [12.0, 11.0, 10.0, 9.0, 8.0];

/// The points on the map, and what is to be said of them: how many there are, how many lie outside, how many values found no room.
pub fn drawn(points: &[Point], frame: &Frame) -> (String, String) {
    let inside: Vec<&Point> = points.iter().filter(|point| frame.has(point)).collect();
    let dots: Vec<Dot> = inside.iter().map(|point| Dot { x: frame.across(point.x), y: frame.down(point.y), value: point.z.to_string() }).collect();
    let (size, places) = sized(&dots, frame);
    let circles: String = inside.iter().zip(&dots).map(|(point, dot)| circle(point, dot, size)).collect();
    let texts: String = dots.iter().zip(&places).filter_map(|(dot, place)| Some(value(dot, place.as_ref()?, size))).collect();
    let lines = lines(&dots, &places);
    let circles = format!("<g fill=\"#fff\" stroke=\"#000\" stroke-width=\"0.8\">\n{circles}</g>\n");
    (lines + &circles + &with_halo(&texts, size), note(points.len(), points.len() - inside.len(), missing(&places)))
}

/// The size of the text, and where each value goes.
fn sized(dots: &[Dot], frame: &Frame) -> (f64, Vec<Option<Place>>) {
    let mut beside = SIZES.into_iter().map(|size| (size, room::places(dots, frame, size, false)));
    let smallest = SIZES[SIZES.len() - 1];
    beside.find(|(_, places)| missing(places) == 0).unwrap_or_else(|| (smallest, room::places(dots, frame, smallest, true)))
}

fn circle(point: &Point, dot: &Dot, size: f64) -> String {
    let Point { x, y, z } = point;
    let title = format!("{z} steps, measured\nx {x}: {} cycles\ny {y}: {} h", 16 * u32::from(*x), 4 * u32::from(*y));
    format!("<circle cx=\"{}\" cy=\"{}\" r=\"{}\"><title>{title}</title></circle>\n", px(dot.x), px(dot.y), px(room::radius(size)))
}

fn value(dot: &Dot, place: &Place, size: f64) -> String {
    format!("<text x=\"{}\" y=\"{}\">{}</text>\n", px(place.area.x), px(place.area.y + 0.36 * size), dot.value)
}

/// The lines to the values that stand off, black on white.
fn lines(dots: &[Dot], places: &[Option<Place>]) -> String {
    let line = |(dot, place): (&Dot, &Option<Place>)| {
        let (x, y) = place.as_ref()?.line_to?;
        Some(format!("M{} {}L{} {}", px(dot.x), px(dot.y), px(x), px(y)))
    };
    let all: String = dots.iter().zip(places).filter_map(line).collect();
    let drawn = |look: &str| format!("<path d=\"{all}\" {look} pointer-events=\"none\"/>\n");
    if all.is_empty() {
        return String::new();
    }
    drawn("stroke=\"#fff\" stroke-width=\"2\"") + &drawn("stroke=\"#000\" stroke-width=\"0.7\"")
}

/// The texts twice: first a broad white line around each letter, then the letters.
fn with_halo(texts: &str, size: f64) -> String {
    let same = "<use xlink:href=\"#values\" pointer-events=\"none\"";
    let size = px(size);
    format!(
        "<defs>\n<g id=\"values\" font-size=\"{size}\" text-anchor=\"middle\">\n{texts}</g>\n</defs>\n\
         {same} fill=\"none\" stroke=\"#fff\" stroke-width=\"2.4\" stroke-linejoin=\"round\"/>\n{same} fill=\"#000\"/>\n"
    )
}

fn note(all: usize, outside: usize, missing: usize) -> String {
    if all == 0 {
        return String::new();
    }
    let outside = if outside > 0 { format!(", {outside} of them outside the map and not drawn") } else { String::new() };
    let missing = if missing > 0 { format!(", {} in tooltips alone for want of room", counted(missing as u64, "value")) } else { String::new() };
    format!(", {}{outside}{missing}", counted(all as u64, "measured point"))
}
