use super::colours::{Scale, LAST};
use super::frame::Frame;
use super::text::{escape, headline};
use super::{points, room, svg, ticks, Map, Of};
use shepard::{Grid, Point};

const WHOLE: Grid = Grid { x0: 0, y0: 0, step_x: 65, step_y: 65, columns: 64, rows: 64 };

fn grid(columns: u16, rows: u16) -> Grid {
    Grid { columns, rows, ..WHOLE }
}

/// The tags of a text nest, every one is closed, and no `&` or `<` stands alone.
fn assert_well_formed(text: &str) {
    let mut open = Vec::new();
    let body = text.strip_prefix("<?xml version=\"1.0\" encoding=\"UTF-8\"?>\n").expect("the XML head");
    for part in body.split('<').skip(1) {
        let (tag, between) = part.split_once('>').expect("a closed tag");
        assert!(tag.matches('"').count() % 2 == 0, "{tag}");
        assert!(between.split('&').skip(1).all(|rest| ["amp;", "lt;", "gt;"].iter().any(|name| rest.starts_with(name))), "{between}");
        match tag.strip_prefix('/') {
            Some(name) => assert_eq!(open.pop(), Some(name)),
            None if tag.ends_with('/') => {}
            None => open.push(tag.split([' ', '\n']).next().expect("a name")),
        }
    }
    assert!(open.is_empty(), "{open:?}");
}

fn points(count: u16) -> Vec<Point> {
    (0..count).map(|i| Point { x: 16 * i, y: (37 * i) % 4096, z: -(i as i8 & 63) }).collect()
}

#[test]
fn titles_are_escaped_and_fitted() {
    assert_eq!(escape("a<b>&\"c\"\u{1b}\n\u{e9}"), "a&lt;b&gt;&amp;\"c\"\u{fffd} \u{e9}");
    assert!(headline("drive", 900.0).contains("font-size=\"18\""));
    assert!(headline(&"&".repeat(130), 900.0).contains(&"&amp;".repeat(130)));
    assert!(headline(&"w".repeat(500), 900.0).contains("w...<"));
}

#[test]
fn marks_of_an_axis() {
    assert_eq!(ticks::of_axis(0, 65, 64, 10), [0, 500, 1000, 1500, 2000, 2500, 3000, 3500, 4000]);
    assert_eq!(ticks::of_axis(7, 1000, 4, 10), [7, 1007, 2007, 3007]);
    assert_eq!(ticks::of_axis(4095, 65535, 1, 10), [4095]);
    assert_eq!(ticks::of_axis(4032, 1, 64, 10), [4040, 4050, 4060, 4070, 4080, 4090]);
    for most in 3..12 {
        for (first, step, count) in [(0, 65, 64), (31, 1, 64), (4000, 2, 40), (999, 7, 13)] {
            let marks = ticks::of_axis(first, step, count, most);
            assert!((1..=most).contains(&marks.len()), "{first} {step} {count} {most}: {marks:?}");
        }
    }
}

#[test]
fn marks_of_the_bar() {
    assert_eq!(ticks::of_bar(-300, 900, 11), [-256, -128, 0, 128, 256, 384, 512, 640, 768, 896]);
    assert_eq!(ticks::of_bar(-22431, 507, 11), (-8..=0).map(|n| 2560 * n).collect::<Vec<i64>>());
    assert_eq!(ticks::of_bar(5, 8, 11), [5, 6, 7, 8]);
}

#[test]
fn colours_at_the_ends() {
    let answers = Scale::of(&[-256, 0, 512], &Of::Answer);
    assert_eq!([-256, 512].map(|n| answers.colour(answers.level(n))), ["#440154", "#fde725"]);
    let support = Scale::of(&[700, 900], &Of::Support);
    assert_eq!([0, 900].map(|n| support.colour(support.level(n))), ["#fcfdbf", "#000004"]);
    assert_eq!(Scale::of(&[7, 7], &Of::Answer).level(7), LAST / 2);
    assert_eq!(Scale::of(&[0, 0], &Of::Support).level(0), LAST / 2);
}

#[test]
fn y_goes_upwards_and_cells_lie_around_their_locations() {
    let frame = Frame::of(&WHOLE);
    assert!((frame.across(0) - frame.left - 5.0).abs() < 1e-9 && (frame.bottom() - frame.down(0) - 5.0).abs() < 1e-9);
    assert!(frame.down(4095) < frame.down(0) && frame.across(4095) > frame.across(0));
    let narrow = Frame::of(&Grid { x0: 100, step_x: 10, columns: 1, ..WHOLE });
    let at = |x: u16| narrow.has(&Point { x, y: 0, z: 0 });
    assert_eq!([94, 95, 105, 106].map(at), [false, true, true, false]);
}

#[test]
fn values_do_not_meet() {
    let frame = Frame::of(&WHOLE);
    let dots: Vec<room::Dot> =
        (0..40).map(|i| room::Dot { x: 300.0 + f64::from(i % 8) * 9.0, y: 300.0 + f64::from(i) * 4.0, value: "-50".to_string() }).collect();
    let places: Vec<room::Place> = room::places(&dots, &frame, 8.0, true).into_iter().flatten().collect();
    assert!(places.len() > 20, "{}", places.len());
    for (i, place) in places.iter().enumerate() {
        assert!(places[..i].iter().all(|other| !place.area.meets(&other.area)));
    }
}

#[test]
fn points_outside_are_counted() {
    let frame = Frame::of(&grid(2, 1));
    let (drawn, note) = points::drawn(&[Point { x: 10, y: 0, z: 3 }, Point { x: 4000, y: 4000, z: 4 }], &frame);
    assert_eq!((drawn.matches("<circle").count(), note.as_str()), (1, ", 2 measured points, 1 of them outside the map and not drawn"));
    assert_eq!(points::drawn(&[], &frame).1, "");
}

#[test]
fn pictures_are_well_formed() {
    for (columns, rows, count) in [(1, 1, 0), (1, 64, 256), (64, 1, 3), (5, 3, 1), (64, 64, 200)] {
        for of in [Of::Answer, Of::Support] {
            let cells: Vec<i64> = (0..i64::from(columns) * i64::from(rows)).map(|i| 37 * i % 1000).collect();
            let text = svg(&Map { title: "<&>", grid: grid(columns, rows), cells: &cells, points: &points(count), of });
            assert_well_formed(&text);
            assert_eq!(text.matches("h1\"><title>").count(), cells.len());
        }
    }
}

#[test]
fn a_cell_says_its_location_and_number() {
    let grid = Grid { x0: 1000, y0: 1000, ..grid(1, 1) };
    let text = svg(&Map { title: "one", grid, cells: &[-4065], points: &[], of: Of::Answer });
    assert!(text.contains("<title>-15.87890625\nx 1000: 16000 cycles\ny 1000: 4000 h</title>"));
}
