//! Whether a location lies outside the convex polygon around all points.
use shepard::Point;

/// Outside is where some point has every other one on its left as seen from the location, or straight behind or before it.
/// A point at the location itself, or one on the other side of it, leaves it on the polygon.
pub fn outside(points: &[Point], x: i64, y: i64) -> bool {
    let seen: Vec<(i64, i64)> = points.iter().map(|point| (i64::from(point.x) - x, i64::from(point.y) - y)).collect();
    seen.iter().any(|&rightmost| seen.iter().all(|&other| is_left_or_in_line(rightmost, other)))
}

fn is_left_or_in_line(from: (i64, i64), to: (i64, i64)) -> bool {
    let cross = from.0 * to.1 - from.1 * to.0;
    let dot = from.0 * to.0 + from.1 * to.1;
    cross > 0 || (cross == 0 && dot > 0)
}

#[cfg(test)]
mod tests {
    use super::*;

    fn points(at: &[(u16, u16)]) -> Vec<Point> {
        at.iter().map(|&(x, y)| Point { x, y, z: 0 }).collect()
    }

    #[test]
    fn a_square() {
        let square = points(&[(10, 10), (10, 20), (20, 10), (20, 20), (15, 15)]);
        for (x, y) in [(15, 15), (10, 10), (10, 15), (12, 11), (20, 20), (16, 20)] {
            assert!(!outside(&square, x, y), "({x}, {y})");
        }
        for (x, y) in [(9, 15), (10, 21), (10, 9), (0, 0), (21, 20), (4095, 4095)] {
            assert!(outside(&square, x, y), "({x}, {y})");
        }
    }

    #[test]
    fn one_point_and_a_line() {
        assert!(!outside(&points(&[(5, 5)]), 5, 5));
        assert!(outside(&points(&[(5, 5)]), 5, 6));
        let line = points(&[(0, 0), (4, 2), (8, 4)]);
        assert!(!outside(&line, 2, 1));
        assert!(!outside(&line, 8, 4));
        assert!(outside(&line, 10, 5));
        assert!(outside(&line, 2, 2));
    }
}
