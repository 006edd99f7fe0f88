//! Room for the values of the points: beside the dot, or else a little way off at the end of a thin line.
use super::frame::Frame;
use std::cmp::Reverse;

/// A point in pixels, with its value's text.
pub struct Dot {
    pub x: f64,
    pub y: f64,
    pub value: String,
}

/// A rectangle of the picture, in which a text or a dot is.
#[derive(Clone, Copy, Debug, PartialEq)]
pub struct Area {
    pub x: f64,
    pub y: f64,
    width: f64,
    height: f64,
}

/// Where a value goes, and where its line ends if it needs one.
#[derive(Clone, Copy)]
pub struct Place {
    pub area: Area,
    pub line_to: Option<(f64, f64)>,
}

/// The four sides, then the four corners, as parts of the way from a dot to a text beside it.
const SIDES: [(f64, f64); 8] = [(1.0, 0.0), (-1.0, 0.0), (0.0, -1.0), (0.0, 1.0), (1.0, -1.0), (1.0, 1.0), (-1.0, -1.0), (-1.0, 1.0)];

/// How far off a value may be, in heights of its text, and in how many directions it is tried there.
const RINGS: [f64; 8] = [1.8, 2.4, 3.0, 3.6, 4.2, 5.0, 6.0, 7.0];
const DIRECTIONS: u32 = 32;

/// How often the order is changed for the values that find no place.
const ROUNDS: usize = 8;

impl Area {
    pub fn meets(&self, other: &Area) -> bool {
        2.0 * (self.x - other.x).abs() < self.width + other.width && 2.0 * (self.y - other.y).abs() < self.height + other.height
    }

    fn within(&self, frame: &Frame) -> bool {
        let (across, down) = (self.width / 2.0, self.height / 2.0);
        self.x - across >= frame.left && self.x + across <= frame.right() && self.y - down >= frame.top && self.y + down <= frame.bottom()
    }
}

/// A dot's radius, by the size of the values' text.
pub fn radius(size: f64) -> f64 {
    size / 4.0
}

fn dot_area(dot: &Dot, size: f64) -> Area {
    Area { x: dot.x, y: dot.y, width: 2.0 * radius(size), height: 2.0 * radius(size) }
}

fn text_area(dot: &Dot, size: f64, off: (f64, f64)) -> Area {
    Area { x: dot.x + off.0, y: dot.y + off.1, width: 0.64 * size * dot.value.len() as f64, height: 0.8 * size }
}

/// The places right beside a dot, the best one first.
fn beside(dot: &Dot, size: f64) -> impl Iterator<Item = Area> + '_ {
    let text = text_area(dot, size, (0.0, 0.0));
    let (across, down) = (radius(size) + 1.0 + text.width / 2.0, radius(size) + 0.5 + text.height / 2.0);
    SIDES.iter().map(move |side| text_area(dot, size, (side.0 * across, side.1 * down)))
}

/// The places at the end of a line, the nearest ones first.
fn farther(dot: &Dot, size: f64) -> impl Iterator<Item = Area> + '_ {
    let turn = |k: u32| std::f64::consts::TAU * f64::from(k) / f64::from(DIRECTIONS);
    RINGS.iter().flat_map(move |ring| (0..DIRECTIONS).map(move |k| text_area(dot, size, (ring * size * turn(k).cos(), ring * size * turn(k).sin()))))
}

/// Where the line from a dot meets its text.
fn line_end(dot: &Dot, text: &Area) -> (f64, f64) {
    let (dx, dy) = (text.x - dot.x, text.y - dot.y);
    let inside = (text.width / 2.0 / dx.abs()).min(text.height / 2.0 / dy.abs());
    (dot.x + dx * (1.0 - inside), dot.y + dy * (1.0 - inside))
}

/// The line as small areas a pixel apart, from the dot's edge on.
fn line_areas(dot: &Dot, to: (f64, f64), size: f64) -> impl Iterator<Item = Area> {
    let (x, y, dx, dy) = (dot.x, dot.y, to.0 - dot.x, to.1 - dot.y);
    let length = dx.hypot(dy);
    let first = radius(size).ceil() as u32;
    (first..=length as u32).map(move |i| f64::from(i) / length).map(move |part| Area { x: x + dx * part, y: y + dy * part, width: 1.0, height: 1.0 })
}

/// The dots by how many others are near them, those in the thick of a cluster first.
fn crowded_first(dots: &[Dot], size: f64) -> Vec<usize> {
    let near = |a: &Dot, b: &Dot| (a.x - b.x).hypot(a.y - b.y) < 3.0 * size;
    let mut order: Vec<usize> = (0..dots.len()).collect();
    order.sort_by_key(|&i| Reverse(dots.iter().filter(|other| near(&dots[i], other)).count()));
    order
}

/// A place for each dot's value, taken in an order, first beside the dots and then with lines, in which it meets no dot, no line and no other value.
fn in_order(order: &[usize], dots: &[Dot], frame: &Frame, size: f64, lines: bool) -> Vec<Option<Place>> {
    let mut taken: Vec<Area> = dots.iter().map(|dot| dot_area(dot, size)).collect();
    let mut places = vec![None; dots.len()];
    for &i in order {
        let area = beside(&dots[i], size).find(|area| area.within(frame) && !taken.iter().any(|other| area.meets(other)));
        taken.extend(area);
        places[i] = area.map(|area| Place { area, line_to: None });
    }
    for &i in order.iter().filter(|_| lines) {
        if places[i].is_none() {
            places[i] = led(&dots[i], frame, size, &mut taken);
        }
    }
    places
}

/// A place at the end of a line.
fn led(dot: &Dot, frame: &Frame, size: f64, taken: &mut Vec<Area>) -> Option<Place> {
    let own = dot_area(dot, size);
    let free = |area: &Area| !taken.iter().any(|other| *other != own && area.meets(other));
    let line = |text: &Area| line_areas(dot, line_end(dot, text), size);
    let area = farther(dot, size).find(|text| text.within(frame) && free(text) && line(text).all(|area| free(&area)))?;
    taken.push(area);
    taken.extend(line(&area));
    Some(Place { area, line_to: Some(line_end(dot, &area)) })
}

/// How many values have no place.
pub fn missing(places: &[Option<Place>]) -> usize {
    places.iter().filter(|place| place.is_none()).count()
}

/// A place for as many values as find one, of a size and with or without lines; those that find none go first in the next round.
pub fn places(dots: &[Dot], frame: &Frame, size: f64, lines: bool) -> Vec<Option<Place>> {
    let mut order = crowded_first(dots, size);
    let mut last = in_order(&order, dots, frame, size, lines);
    let mut best = last.clone();
    for _ in 0..ROUNDS {
        if missing(&best) == 0 {
            break;
        }
        order.sort_by_key(|&i| last[i].is_some());
        last = in_order(&order, dots, frame, size, lines);
        if missing(&last) < missing(&best) {
            best = last.clone();
        }
    }
    best
}
