//! Document 01 in Rust, written from the paper alone, to hold the library to: points in a vector, the mean in f64.
//! The area that R0 goes by is document 02's, in `polygon`; `esri` has document 02's text of a grid, `grid_file` how a grid file is read.
pub mod esri;
pub mod grid_file;
pub mod polygon;

use shepard::{Grid, Kind, Neighbour};

pub type Point = (u16, u16, i8);

/// The greatest whole number whose square does not exceed n.
fn root(n: u64) -> u64 {
    let mut r = (n as f64).sqrt() as u64;
    while r * r > n {
        r -= 1;
    }
    while (r + 1) * (r + 1) <= n {
        r += 1;
    }
    r
}

fn squared(p: (u32, u32), a: &Point) -> u64 {
    let dx = i64::from(p.0) - i64::from(a.0);
    let dy = i64::from(p.1) - i64::from(a.1);
    (dx * dx + dy * dy) as u64
}

/// R0 of one point or more.
pub fn initial_radius(points: &[Point]) -> u64 {
    root(65536 * 7 * 113 * polygon::twice_area(points) / (355 * points.len() as u64 * 2))
}

/// What a lookup among one point or more chooses: the points in order of choice, and R.
fn choice(points: &[Point], p: (u32, u32)) -> (Vec<Point>, u64) {
    let mut ordered = points.to_vec();
    ordered.sort_by_key(|a| (squared(p, a), a.0, a.1));
    let distance = |a: &Point| root(65536 * squared(p, a));
    if squared(p, &ordered[0]) == 0 {
        return (ordered[..1].to_vec(), 0);
    }
    let r0 = initial_radius(points);
    let within = ordered.iter().filter(|a| distance(a) <= r0).count();
    match within {
        0..=4 if points.len() <= 4 => (ordered, 0),
        0..=4 => (ordered[..4].to_vec(), distance(&ordered[4])),
        5..=10 => (ordered[..within].to_vec(), r0),
        _ => (ordered[..10].to_vec(), distance(&ordered[10])),
    }
}

pub struct Lookup {
    pub neighbours: Vec<Neighbour>,
    pub radius: u32,
    /// The mean, but for f64's rounding.
    pub mean: f64,
}

/// A lookup among one point or more at a location in the domain.
pub fn lookup(points: &[Point], x: u32, y: u32) -> Lookup {
    let p = (x, y);
    let (chosen, radius) = choice(points, p);
    let distances: Vec<u64> = chosen.iter().map(|a| root(65536 * squared(p, a))).collect();
    let kinds: Vec<Kind> = distances
        .iter()
        .map(|&d| match d {
            0 => Kind::Coincident,
            _ if points.len() <= 4 || 3 * d <= radius => Kind::Inverse,
            _ if d < radius => Kind::Tapered,
            _ => Kind::Edge,
        })
        .collect();
    let neighbours = (0..chosen.len())
        .map(|i| Neighbour { x: chosen[i].0, y: chosen[i].1, z: chosen[i].2, distance: distances[i] as u32, kind: kinds[i] })
        .collect();
    Lookup { neighbours, radius: radius as u32, mean: mean(p, &chosen, &distances, &kinds, radius as f64) }
}

fn mean(p: (u32, u32), chosen: &[Point], distances: &[u64], kinds: &[Kind], radius: f64) -> f64 {
    let factor = |i: usize| match kinds[i] {
        Kind::Coincident => 1.0,
        Kind::Inverse => 1.0 / distances[i] as f64,
        Kind::Tapered => 27.0 * (radius - distances[i] as f64).powi(2) / (4.0 * radius.powi(3)),
        Kind::Edge => 0.0,
    };
    let offset = |i: usize| (i64::from(chosen[i].0) - i64::from(p.0), i64::from(chosen[i].1) - i64::from(p.1));
    let cosine_gap = |i: usize, j: usize| {
        let (a, b) = (offset(i), offset(j));
        let product = (distances[i] * distances[j]) as i64;
        (product - 65536 * (a.0 * b.0 + a.1 * b.1)).abs() as f64 / product as f64
    };
    let n = chosen.len();
    let total: f64 = (0..n).map(factor).sum();
    let weights: Vec<f64> = (0..n)
        .map(|i| {
            if total == 0.0 || n == 1 {
                return 1.0;
            }
            let term: f64 = (0..n).filter(|&j| j != i).map(|j| factor(j) * cosine_gap(i, j)).sum();
            factor(i) * factor(i) * (1.0 + term / total)
        })
        .collect();
    let weighted: f64 = (0..n).map(|i| weights[i] * f64::from(chosen[i].2)).sum();
    weighted / weights.iter().sum::<f64>()
}

fn word(b: &[u8]) -> u64 {
    256 * u64::from(b[0]) + u64::from(b[1])
}

/// The points of a survey file, or its refusal.
pub fn read(file: &[u8]) -> Result<Vec<Point>, u8> {
    if file.len() < 12 || file.len() > 65536 {
        return Err(9);
    }
    let (before, trailer) = file.split_at(file.len() - 12);
    if &trailer[8..] != b"RLS1" {
        return Err(10);
    }
    let count = word(trailer);
    if count > 256 {
        return Err(11);
    }
    let back = 65536 * word(&trailer[2..]) + word(&trailer[4..]);
    if back != 5 * count || back > before.len() as u64 {
        return Err(12);
    }
    let records = &before[before.len() - back as usize..];
    if records.iter().map(|&b| u64::from(b)).sum::<u64>() % 65536 != word(&trailer[6..]) {
        return Err(13);
    }
    let mut points: Vec<Point> = Vec::new();
    for b in records.chunks(5) {
        let (x, y) = (word(b) as u16, word(&b[2..]) as u16);
        if x > 4095 || y > 4095 {
            return Err(14);
        }
        if points.last().is_some_and(|a| (a.0, a.1) >= (x, y)) {
            return Err(15);
        }
        points.push((x, y, b[4] as i8));
    }
    Ok(points)
}

pub fn write(points: &[Point]) -> Vec<u8> {
    let mut file: Vec<u8> = points.iter().flat_map(|a| [&a.0.to_be_bytes()[..], &a.1.to_be_bytes()[..], &[a.2 as u8]].concat()).collect();
    let sum = file.iter().map(|&b| u64::from(b)).sum::<u64>() % 65536;
    let back = file.len() as u32;
    file.extend((points.len() as u16).to_be_bytes());
    file.extend(back.to_be_bytes());
    file.extend((sum as u16).to_be_bytes());
    file.extend(b"RLS1");
    file
}

fn off_domain(x: u32, y: u32) -> bool {
    x > 4095 || y > 4095
}

fn find(points: &[Point], x: u32, y: u32) -> Option<usize> {
    points.iter().position(|a| u32::from(a.0) == x && u32::from(a.1) == y)
}

/// The points after an edit, or its refusal.
pub fn add(points: &[Point], x: u32, y: u32, z: i32) -> Result<Vec<Point>, u8> {
    let refusal = if off_domain(x, y) {
        1
    } else if !(-128..=127).contains(&z) {
        2
    } else if find(points, x, y).is_some() {
        3
    } else if points.len() == 256 {
        5
    } else {
        0
    };
    if refusal != 0 {
        return Err(refusal);
    }
    let mut after = points.to_vec();
    after.push((x as u16, y as u16, z as i8));
    after.sort();
    Ok(after)
}

pub fn change(points: &[Point], x: u32, y: u32, z: i32) -> Result<Vec<Point>, u8> {
    if off_domain(x, y) {
        return Err(1);
    }
    if !(-128..=127).contains(&z) {
        return Err(2);
    }
    let i = find(points, x, y).ok_or(4)?;
    let mut after = points.to_vec();
    after[i].2 = z as i8;
    Ok(after)
}

pub fn drop(points: &[Point], x: u32, y: u32) -> Result<Vec<Point>, u8> {
    if off_domain(x, y) {
        return Err(1);
    }
    let i = find(points, x, y).ok_or(4)?;
    let mut after = points.to_vec();
    after.remove(i);
    Ok(after)
}

/// 1 or 6, of a lookup.
pub fn lookup_refusal(points: &[Point], x: u32, y: u32) -> u8 {
    if off_domain(x, y) {
        1
    } else if points.is_empty() {
        6
    } else {
        0
    }
}

/// 7 or 6, of a grid.
pub fn grid_refusal(points: &[Point], g: &Grid) -> u8 {
    let axis = |start: u16, step: u16, count: u16| {
        step >= 1 && (1..=64).contains(&count) && u32::from(start) + (u32::from(count) - 1) * u32::from(step) <= 4095
    };
    if !(axis(g.x0, g.step_x, g.columns) && axis(g.y0, g.step_y, g.rows)) {
        7
    } else if points.is_empty() {
        6
    } else {
        0
    }
}
