//! The library held to an implementation of documents 01 and 02 that was written apart, on random and damaged input.
//! The tests of the Esri ASCII grid are in `esri`, those of grid files that are read in `grid_file`, those of the polygon in `polygon`, and those of the
//! refusals' names in `refusals`.
mod esri;
mod grid_file;
mod input;
mod paper;
mod polygon;
mod refusals;

use input::{damaged, mend_sum, Random};
use paper::Point;
use shepard::{bytes, Grid, Refusal, Survey};

const LENT: u8 = 0xa5;

/// What a call that writes to lent bytes gives: its length or refusal, and the bytes.
fn lent(room: usize, call: impl FnOnce(&mut [u8]) -> Result<usize, Refusal>) -> (Result<usize, u8>, Vec<u8>) {
    let mut out = vec![LENT; room];
    let answer = call(&mut out).map_err(|no| no.0);
    (answer, out)
}

/// The same of bytes that are to be written, or a refusal.
fn expected(room: usize, bytes: Result<Vec<u8>, u8>) -> (Result<usize, u8>, Vec<u8>) {
    let mut out = vec![LENT; room];
    match bytes {
        Ok(b) if b.len() <= room => {
            out[..b.len()].copy_from_slice(&b);
            (Ok(b.len()), out)
        }
        Ok(_) => (Err(8), out),
        Err(no) => (Err(no), out),
    }
}

/// Within 129/65,536 of a step of the mean, and between the least and the greatest of the chosen values.
fn check_answer(want: &paper::Lookup, answer: i16) {
    let off = (256.0 * f64::from(answer) - 65536.0 * want.mean).abs();
    assert!(off <= 129.0 + 1e-6, "{:?}: {answer} is {off} / 65536 from {}", want.neighbours, want.mean);
    let values = || want.neighbours.iter().map(|a| 256 * i16::from(a.z));
    assert!(values().min() <= Some(answer) && Some(answer) <= values().max(), "{:?}: {answer}", want.neighbours);
}

/// Every cell is the answer of the lookup at its location.
fn check_cells(points: &[Point], g: &Grid, cells: &[i16]) {
    let file = paper::write(points);
    for (i, &cell) in cells.iter().enumerate() {
        let (c, r) = (i as u32 % u32::from(g.columns), i as u32 / u32::from(g.columns));
        let (x, y) = (u32::from(g.x0) + c * u32::from(g.step_x), u32::from(g.y0) + r * u32::from(g.step_y));
        assert_eq!(cell, bytes::lookup(&file, x, y).unwrap().answer);
        check_answer(&paper::lookup(points, x, y), cell);
    }
}

fn check_lookups(points: &[Point], random: &mut Random) {
    let file = paper::write(points);
    for _ in 0..20 {
        let side = if random.below(2) == 0 { 40 } else { 4096 };
        let (x, y) = (random.coordinate(side), random.coordinate(side));
        let room = [0, 99, 100, 137][random.below(4) as usize];
        let mut records = vec![LENT; room];
        let plain = bytes::lookup(&file, x, y);
        let listed = bytes::lookup_neighbours(&file, x, y, &mut records);
        let no = paper::lookup_refusal(points, x, y);
        if no != 0 {
            assert_eq!((plain, listed), (Err(Refusal(no)), Err(Refusal(no))));
            assert_eq!(records, vec![LENT; room]);
            continue;
        }
        let found = plain.unwrap();
        let want = paper::lookup(points, x, y);
        assert_eq!((found.count, found.radius), (want.neighbours.len(), want.radius));
        check_answer(&want, found.answer);
        if room < 100 {
            assert_eq!((listed, records), (Err(Refusal(8)), vec![LENT; room]));
            continue;
        }
        assert_eq!(listed, Ok(found));
        assert_eq!(records[10 * found.count..], vec![LENT; room - 10 * found.count]);
        let survey = Survey::from_file(&file).unwrap();
        assert_eq!(survey.lookup_neighbours(x, y), Ok((found, want.neighbours)));
    }
}

#[test]
fn lookups() {
    let mut random = Random(1);
    for _ in 0..600 {
        let points = random.points(256);
        check_lookups(&points, &mut random);
        let few = random.points(12);
        check_lookups(&few, &mut random);
    }
}

#[test]
fn many_lookups() {
    let mut random = Random(2);
    for _ in 0..200 {
        let points = random.points(256);
        let file = paper::write(&points);
        let locations: Vec<(u16, u16)> = (0..random.below(20)).map(|_| (random.coordinate(4096) as u16, random.coordinate(4096) as u16)).collect();
        let mut from: Vec<u8> = locations.iter().flat_map(|&(x, y)| [x.to_be_bytes(), y.to_be_bytes()].concat()).collect();
        from.extend(vec![7; random.below(4) as usize]);
        let room = (8 * locations.len() + 5).saturating_sub(random.below(10) as usize);
        let mut out = vec![LENT; room];
        let answer = bytes::lookup_many(&file, &from, &mut out);
        let refusals = locations.iter().map(|&(x, y)| paper::lookup_refusal(&points, u32::from(x), u32::from(y)));
        let short = if room < 8 * locations.len() { 8 } else { 0 };
        let no = refusals.chain([short]).find(|&no| no != 0).unwrap_or(0);
        if no != 0 {
            assert_eq!((answer, out), (Err(Refusal(no)), vec![LENT; room]));
            continue;
        }
        assert_eq!(answer, Ok(()));
        assert_eq!(out[8 * locations.len()..], vec![LENT; room - 8 * locations.len()]);
        let found = Survey::from_file(&file).unwrap().lookup_many(&locations).unwrap();
        for (&(x, y), found) in locations.iter().zip(found) {
            assert_eq!(bytes::lookup(&file, u32::from(x), u32::from(y)), Ok(found));
        }
    }
}

#[test]
fn edits() {
    let mut random = Random(3);
    for turn in 0..60 {
        let mut points = random.points(if turn % 2 == 0 { 256 } else { 30 });
        let side = if turn % 3 == 0 { 6 } else { 4096 };
        for _ in 0..60 {
            let file = paper::write(&points);
            let (mut x, mut y, z) = (random.coordinate(side), random.coordinate(side), random.value());
            if random.below(2) == 0 && !points.is_empty() {
                let a = points[random.below(points.len() as u32) as usize];
                (x, y) = (u32::from(a.0), u32::from(a.1));
            }
            let room = (file.len() + 20).saturating_sub(random.below(40) as usize);
            let (answer, after) = match random.below(3) {
                0 => (lent(room, |out| bytes::add(&file, x, y, z, out)), paper::add(&points, x, y, z)),
                1 => (lent(room, |out| bytes::change(&file, x, y, z, out)), paper::change(&points, x, y, z)),
                _ => (lent(room, |out| bytes::drop(&file, x, y, out)), paper::drop(&points, x, y)),
            };
            assert_eq!(answer, expected(room, after.clone().map(|p| paper::write(&p))));
            points = after.unwrap_or(points);
        }
    }
}

#[test]
fn a_full_survey() {
    let mut survey = Survey::new();
    for i in 0..256 {
        assert_eq!(survey.add(i, 4095 - i, 127), Ok(()));
    }
    assert_eq!(survey.count(), 256);
    assert_eq!(survey.add(0, 0, 0), Err(Refusal(5)));
    assert_eq!(survey.drop_point(7, 4088), Ok(()));
    assert_eq!(survey.add(0, 0, 0), Ok(()));
    survey.clear();
    assert_eq!((survey.count(), survey.lookup(0, 0)), (0, Err(Refusal(6))));
}

#[test]
fn damaged_files() {
    let mut random = Random(4);
    let mut seen = [0; 16];
    for _ in 0..6000 {
        let points = random.points(8);
        let mut file = damaged(&mut random, &points);
        if random.below(200) == 0 {
            let mut long = vec![0; 65530 + random.below(12) as usize];
            long.extend(&file);
            file = long;
        }
        mend_sum(&mut random, &mut file);
        let want = paper::read(&file);
        seen[*want.as_ref().err().unwrap_or(&0) as usize] += 1;
        assert_eq!(bytes::check(&file).map_err(|no| no.0), want.as_ref().map(Vec::len).map_err(|&no| no));
        let room = random.below(60) as usize;
        assert_eq!(lent(room, |out| bytes::rewrite(&file, out)), expected(room, want.clone().map(|p| paper::write(&p))));
        assert_eq!(lent(room, |out| bytes::add(&file, 9999, 0, 0, out)), expected(room, want.clone().and(Err(1))));
        assert_eq!(lent(room, |out| bytes::esri(&file, &esri::UNLIKE_STEPS, out)), expected(room, want.clone().and(Err(16))));
        if let Err(no) = want {
            assert_eq!(bytes::lookup(&file, 9999, 0), Err(Refusal(no)));
            assert_eq!(bytes::lookup_many(&file, &[255; 4], &mut []), Err(Refusal(no)));
        }
    }
    assert!(seen[9..].iter().all(|&n| n > 0), "refusals met: {seen:?}");
}

#[test]
fn grids() {
    let mut random = Random(5);
    for _ in 0..150 {
        let points = random.points(60);
        let file = paper::write(&points);
        let mut number = |most: u32| if random.below(30) == 0 { random.below(65536) as u16 } else { random.below(most) as u16 };
        let g = Grid { x0: number(4000), y0: number(4000), step_x: number(20), step_y: number(20), columns: number(9), rows: number(9) };
        let no = paper::grid_refusal(&points, &g);
        let length = 2 * usize::from(g.columns) * usize::from(g.rows) + 20;
        let room = if no == 0 { length + 3 - random.below(5) as usize } else { 40 };
        let (answer, out) = lent(room, |out| bytes::grid_file(&file, &g, out));
        if no != 0 || room < length {
            assert_eq!((answer, out), (Err(if no != 0 { no } else { 8 }), vec![LENT; room]));
            continue;
        }
        assert_eq!(answer, Ok(length));
        assert_eq!(out[length..], vec![LENT; room - length]);
        let six = [g.x0, g.y0, g.step_x, g.step_y, g.columns, g.rows].map(u16::to_be_bytes).concat();
        let trailer = [&six[..], &(length as u32 - 20).to_be_bytes()[..], b"RLG1"].concat();
        assert_eq!(out[length - 20..length], trailer);
        check_cells(&points, &g, &Survey::from_file(&file).unwrap().grid(&g).unwrap());
    }
}

#[test]
fn fresh() {
    let empty = paper::write(&[]);
    for room in 0..15 {
        assert_eq!(lent(room, bytes::fresh), expected(room, Ok(empty.clone())));
    }
}
