//! The refusals' names, numbers and texts held to one another and to calls that are refused.
use crate::paper;
use shepard::{bytes, Grid, GridFile, Refusal, Survey};

const ONE_CELL: Grid = Grid { x0: 0, y0: 0, step_x: 5, step_y: 5, columns: 1, rows: 1 };

const ALL: [(u8, Refusal, &str); 16] = [
    (1, Refusal::OFF_DOMAIN, "the location is off the domain"),
    (2, Refusal::OUT_OF_RANGE, "the value is out of range"),
    (3, Refusal::POINT_THERE, "a point is there already"),
    (4, Refusal::NO_POINT_THERE, "no point is there"),
    (5, Refusal::FULL, "256 points are present"),
    (6, Refusal::EMPTY, "no point is present"),
    (7, Refusal::GRID_RULE, "the grid breaks a rule"),
    (8, Refusal::TOO_SHORT, "what is lent is too short"),
    (9, Refusal::FILE_LENGTH, "it has under 12 or over 65,536 bytes"),
    (10, Refusal::FILE_MAGIC, "its last four bytes are not RLS1"),
    (11, Refusal::FILE_COUNT, "its count is above 256"),
    (12, Refusal::FILE_BACK, "its back distance does not fit"),
    (13, Refusal::FILE_SUM, "the sum of its record bytes differs"),
    (14, Refusal::RECORD_DOMAIN, "a record is off the domain"),
    (15, Refusal::RECORD_ORDER, "a record is not after the one before"),
    (16, Refusal::STEPS_DIFFER, "the two steps of an Esri ASCII grid differ"),
];

const OF_GRID_FILES: [(Refusal, &str); 4] = [
    (Refusal::GRID_RULE, "its grid breaks a rule"),
    (Refusal::FILE_LENGTH, "no grid file has its length"),
    (Refusal::FILE_MAGIC, "its last four bytes are not RLG1"),
    (Refusal::FILE_BACK, "its back distance or its length does not go with its six numbers"),
];

#[test]
fn names_texts_and_numbers() {
    for (no, name, text) in ALL {
        assert_eq!((name, name.text()), (Refusal(no), text));
        assert_eq!(name.to_string(), format!("refused {no}: {text}"));
    }
    for no in [0, 17, 255] {
        assert_eq!(Refusal(no).text(), "no such refusal");
        assert_eq!(Refusal(no).grid_file_text(), "no such refusal");
    }
}

#[test]
fn texts_of_grid_files() {
    for (_, name, text) in ALL {
        let own = OF_GRID_FILES.iter().find(|(refusal, _)| *refusal == name);
        assert_eq!(name.grid_file_text(), own.map_or(text, |(_, own)| own));
    }
}

#[test]
fn names_of_calls_that_are_refused() {
    let (mut survey, empty) = (Survey::new(), Survey::new());
    for x in 0..256 {
        survey.add(x, 7, -3).unwrap();
    }
    assert_eq!(survey.add(4096, 0, 0), Err(Refusal::OFF_DOMAIN));
    assert_eq!(survey.change(0, 7, 128), Err(Refusal::OUT_OF_RANGE));
    assert_eq!(survey.add(0, 7, 0), Err(Refusal::POINT_THERE));
    assert_eq!(survey.drop_point(0, 8), Err(Refusal::NO_POINT_THERE));
    assert_eq!(survey.add(0, 8, 0), Err(Refusal::FULL));
    assert_eq!(empty.lookup(0, 0), Err(Refusal::EMPTY));
    assert_eq!(survey.grid(&Grid { rows: 65, ..ONE_CELL }), Err(Refusal::GRID_RULE));
    assert_eq!(bytes::rewrite(survey.as_file(), &mut []), Err(Refusal::TOO_SHORT));
    assert_eq!(survey.esri(&Grid { step_y: 6, ..ONE_CELL }), Err(Refusal::STEPS_DIFFER));
}

#[test]
fn names_of_files_that_are_refused() {
    let file = paper::write(&[(3, 0, -7), (4, 0, -7)]);
    // bytes 10 and 11 are the count, 12 to 15 the back distance, 16 and 17 the sum, 18 to 21 RLS1
    for (at, byte, why) in [
        (21, b'2', Refusal::FILE_MAGIC),
        (10, 2, Refusal::FILE_COUNT),
        (15, 9, Refusal::FILE_BACK),
        (17, 0, Refusal::FILE_SUM),
        (1, 5, Refusal::RECORD_ORDER),
        (0, 0x10, Refusal::RECORD_DOMAIN),
    ] {
        let mut other = file.clone();
        other[at] = byte;
        if at < 10 {
            let sum = other[..10].iter().map(|&b| u16::from(b)).sum::<u16>();
            other[16..18].copy_from_slice(&sum.to_be_bytes());
        }
        assert_eq!(bytes::check(&other), Err(why));
    }
    assert_eq!(bytes::check(&file[12..]), Err(Refusal::FILE_LENGTH));
    assert_eq!(GridFile::read(&file), Err(Refusal::FILE_MAGIC));
    assert_eq!(GridFile::read(&file[1..]), Err(Refusal::FILE_LENGTH));
}
