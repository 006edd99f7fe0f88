//! The convex polygon around points, document 02's §4, found by gift wrapping, which goes from corner to corner round all points.
use super::{squared, Point};

/// The cross product of the ways from a to b and from a to c: above 0 where c is left of the way to b, 0 where the three are on one line.
pub fn cross(a: &Point, b: &Point, c: &Point) -> i64 {
    let way = |to: &Point| (i64::from(to.0) - i64::from(a.0), i64::from(to.1) - i64::from(a.1));
    let (b, c) = (way(b), way(c));
    b.0 * c.1 - b.1 * c.0
}

/// The corner after one, anticlockwise: no point is right of the edge to it, and none on that edge's line is farther.
fn next(points: &[Point], corner: &Point) -> Point {
    let far = |a: &Point| squared((corner.0.into(), corner.1.into()), a);
    points.iter().fold(*corner, |best, a| {
        let turn = cross(corner, &best, a);
        let better = turn < 0 || (turn == 0 && far(a) > far(&best));
        if better {
            *a
        } else {
            best
        }
    })
}

/// The corners of one point or more, anticlockwise; the two ends where all points are on one line.
pub fn corners(points: &[Point]) -> Vec<Point> {
    let first = *points.iter().min().unwrap();
    let mut corners = vec![first];
    loop {
        match next(points, &corners[corners.len() - 1]) {
            corner if corner == first => return corners,
            corner => corners.push(corner),
        }
    }
}

/// 2A, which is whole where A is a half: the polygon is cut into triangles that have its first corner in common.
pub fn twice_area(points: &[Point]) -> u64 {
    let corners = corners(points);
    corners.windows(2).map(|edge| cross(&corners[0], &edge[0], &edge[1])).sum::<i64>() as u64
}
