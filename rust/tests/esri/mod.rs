//! The Esri ASCII grid held to document 02.
use crate::input::Random;
use crate::paper::{self, esri};
use crate::{check_cells, expected, lent};
use shepard::{bytes, Grid, Refusal, Survey};

const ONE_CELL: Grid = Grid { x0: 0, y0: 0, step_x: 5, step_y: 5, columns: 1, rows: 1 };
pub const UNLIKE_STEPS: Grid = Grid { step_y: 6, ..ONE_CELL };

fn survey(points: &[paper::Point]) -> Survey {
    Survey::from_file(&paper::write(points)).unwrap()
}

#[test]
fn the_whole_case() {
    let g = Grid { x0: 0, y0: 0, step_x: 1, step_y: 1, columns: 2, rows: 1 };
    let text = "ncols 2\nnrows 1\nxllcenter 0\nyllcenter 0\ncellsize 1\nNODATA_value -9999\n-7.00000000 -7.00000000\n";
    assert_eq!(survey(&[(3, 0, -7)]).esri(&g).as_deref(), Ok(text));
}

#[test]
fn signs_and_the_order_of_rows() {
    let g = Grid { x0: 10, y0: 7, step_x: 1, step_y: 1, columns: 2, rows: 2 };
    let text = "ncols 2\nnrows 2\nxllcenter 10\nyllcenter 7\ncellsize 1\nNODATA_value -9999\n\
                127.00000000 -128.00000000\n-1.00000000 0.00000000\n";
    assert_eq!(survey(&[(10, 7, -1), (10, 8, 127), (11, 7, 0), (11, 8, -128)]).esri(&g).as_deref(), Ok(text));
}

#[test]
fn between_minus_one_and_zero() {
    let g = Grid { x0: 0, y0: 0, step_x: 1, step_y: 1, columns: 3, rows: 1 };
    let text = survey(&[(0, 0, -1), (2, 0, 0)]).esri(&g).unwrap();
    assert_eq!(text.lines().last(), Some("-1.00000000 -0.50000000 0.00000000"));
}

#[test]
fn the_longest_text() {
    let g = Grid { x0: 1000, y0: 1000, step_x: 10, step_y: 10, columns: 64, rows: 64 };
    let text = survey(&[(0, 0, -128)]).esri(&g).unwrap();
    assert_eq!(text, esri::text(&g, &[-32768; 4096]));
    assert_eq!(text.len(), 57423);
}

#[test]
fn over_the_whole_domain() {
    let g = Grid { x0: 0, y0: 0, step_x: 65, step_y: 65, columns: 64, rows: 64 };
    let survey = survey(&Random(7).points(256));
    assert_eq!(survey.esri(&g), Ok(esri::text(&g, &survey.grid(&g).unwrap())));
}

#[test]
fn a_step_of_five_digits() {
    let g = Grid { step_x: 65535, step_y: 65535, ..ONE_CELL };
    assert_eq!(survey(&[(3, 0, -7)]).esri(&g), Ok(esri::text(&g, &[-7 * 256])));
}

#[test]
fn order_of_refusals() {
    let (none, one) = (paper::write(&[]), paper::write(&[(3, 0, -7)]));
    let mut damaged = one.clone();
    damaged[4] += 1;
    for (file, g, no) in [
        (&damaged, Grid { step_x: 0, ..UNLIKE_STEPS }, 13),
        (&damaged, UNLIKE_STEPS, 13),
        (&none, Grid { step_x: 0, ..UNLIKE_STEPS }, 7),
        (&none, Grid { columns: 65, ..UNLIKE_STEPS }, 7),
        (&none, Grid { y0: 4096, ..UNLIKE_STEPS }, 7),
        (&none, UNLIKE_STEPS, 16),
        (&one, UNLIKE_STEPS, 16),
        (&none, ONE_CELL, 6),
        (&one, ONE_CELL, 8),
    ] {
        assert_eq!(lent(0, |out| bytes::esri(file, &g, out)), (Err(no), vec![]), "{g:?}");
    }
    assert_eq!(survey(&[]).esri(&UNLIKE_STEPS), Err(Refusal(16)));
}

#[test]
fn texts() {
    let mut random = Random(6);
    let mut seen = [0; 17];
    for _ in 0..400 {
        let points = if random.below(6) == 0 { vec![] } else { random.points(60) };
        let file = [vec![7; random.below(20) as usize], paper::write(&points)].concat();
        let alike = random.below(5) > 0;
        let mut number = |most: u32| if random.below(40) == 0 { random.below(65536) as u16 } else { random.below(most) as u16 };
        let mut g = Grid { x0: number(4000), y0: number(4000), step_x: number(20), step_y: number(20), columns: number(9), rows: number(9) };
        if alike {
            g.step_y = g.step_x;
        }
        let no = esri::refusal(&points, &g);
        seen[usize::from(no)] += 1;
        if no != 0 {
            let room = random.below(200) as usize;
            assert_eq!(lent(room, |out| bytes::esri(&file, &g, out)), expected(room, Err(no)));
            continue;
        }
        let survey = survey(&points);
        let cells = survey.grid(&g).unwrap();
        check_cells(&points, &g, &cells);
        let text = esri::text(&g, &cells);
        let length = text.len();
        for room in [length + 1 + random.below(9) as usize, length, length - 1, random.below(length as u32) as usize] {
            assert_eq!(lent(room, |out| bytes::esri(&file, &g, out)), expected(room, Ok(text.clone().into_bytes())));
        }
        let written = survey.esri(&g).unwrap();
        assert_eq!(esri::cells(&written), cells.iter().map(|&cell| f64::from(cell)).collect::<Vec<_>>());
    }
    assert!([0, 6, 7, 16].iter().all(|&no| seen[no] > 9), "refusals met: {seen:?}");
}
