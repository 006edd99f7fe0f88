//! The polygon that R0 goes by: document 02's two cases, of both implementations, and the polygon's own rules, of the one from the papers.
use crate::input::Random;
use crate::paper::polygon::{corners, cross, twice_area};
use crate::paper::{self, initial_radius, Point};
use shepard::{Found, Kind, Survey};

const FIVE: [Point; 5] = [(95, 100, 0), (100, 95, 0), (100, 105, 0), (103, 104, 98), (105, 100, 0)];

/// All locations at distance 5 from (100, 100).
const TWELVE: [Point; 12] = [
    (95, 100, 1),
    (96, 97, 2),
    (96, 103, 3),
    (97, 96, 4),
    (97, 104, 5),
    (100, 95, 6),
    (100, 105, 7),
    (103, 96, 8),
    (103, 104, 9),
    (104, 97, 10),
    (104, 103, 11),
    (105, 100, 12),
];

/// A lookup at (100, 100) has four neighbours, all of them edge, a radius of 1,280, and this answer.
fn check_four_on_the_edge(points: &[Point], answer: i16) {
    let want = paper::lookup(points, 100, 100);
    assert_eq!((want.neighbours.len(), want.radius, 256.0 * want.mean), (4, 1280, f64::from(answer)));
    assert!(want.neighbours.iter().all(|a| a.kind == Kind::Edge));
    let survey = Survey::from_file(&paper::write(points)).unwrap();
    assert_eq!(survey.lookup_neighbours(100, 100), Ok((Found { answer, count: 4, radius: 1280 }, want.neighbours)));
}

#[test]
fn the_five_point_case() {
    assert_eq!((twice_area(&FIVE), initial_radius(&FIVE)), (110, 1267));
    check_four_on_the_edge(&FIVE, 6272);
}

#[test]
fn the_twelve_point_case() {
    assert_eq!((twice_area(&TWELVE), initial_radius(&TWELVE)), (148, 948));
    check_four_on_the_edge(&TWELVE, 640);
}

#[test]
fn half_a_square_step() {
    let triangle = [(7, 7, 0), (7, 8, 0), (8, 7, 0)];
    assert_eq!((twice_area(&triangle), initial_radius(&triangle)), (1, 156));
}

#[test]
fn on_one_line() {
    let rising: Vec<Point> = (0..20).map(|i| (5 + 3 * i, 2 + 7 * i, 0)).collect();
    let falling: Vec<Point> = (0..20).map(|i| (3 * i, 4095 - 7 * i, 0)).collect();
    let upright: Vec<Point> = (0..20).map(|i| (5, 9 * i, 0)).collect();
    for line in [rising, falling, upright] {
        for n in 1..=line.len() {
            assert_eq!((twice_area(&line[..n]), initial_radius(&line[..n])), (0, 0));
            assert_eq!(corners(&line[..n]).len(), n.min(2));
        }
    }
}

#[test]
fn no_point_lies_outside() {
    let mut random = Random(14);
    let (mut lines, mut halves) = (0, 0);
    for _ in 0..600 {
        let points = random.points(256);
        if points.is_empty() {
            continue;
        }
        let corners = corners(&points);
        assert!(corners.iter().all(|corner| points.contains(corner)));
        for (a, b) in corners.iter().zip(corners.iter().cycle().skip(1)) {
            assert!(points.iter().all(|c| cross(a, b, c) >= 0), "{points:?}");
        }
        let twice = twice_area(&points);
        assert_eq!(twice == 0, corners.len() <= 2, "{points:?}");
        lines += u32::from(twice == 0 && points.len() > 4);
        halves += twice % 2;
    }
    assert!(lines > 20 && halves > 100, "{lines} lines, {halves} halves");
}
