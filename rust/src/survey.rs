//! A survey that owns its file's bytes.
use crate::{bytes, Found, Grid, GridFile, Kind, Neighbour, Point, Refusal};

/// Bytes of the longest file that is written.
const FILE_MOST: usize = 5 * 256 + 12;

/// Bytes of the longest grid file.
const GRID_FILE_MOST: usize = 2 * 64 * 64 + 20;

/// Bytes enough for every Esri ASCII grid: 14 for a cell, 90 for the lines before.
const ESRI_MOST: usize = 14 * 64 * 64 + 90;

/// At most 256 points, as the bytes of their file, which has no preamble.
///
/// ```
/// use shepard::{Found, Point, Refusal, Survey};
/// let mut survey = Survey::new();
/// for (x, y, z) in [(100, 200, -3), (900, 250, -12), (1800, 2100, -30), (3900, 1200, -64)] {
///     survey.add(x, y, z)?;
/// }
/// survey.change(900, 250, -11)?;
/// assert_eq!(survey.add(100, 200, 0), Err(Refusal::POINT_THERE));
///
/// let (found, neighbours) = survey.lookup_neighbours(1000, 1000)?;
/// assert_eq!(found, Found { answer: -4065, count: 4, radius: 0 });
/// assert_eq!((neighbours[0].x, neighbours[0].y, neighbours[0].z), (900, 250, -11));
///
/// let again = Survey::from_file(survey.as_file())?;
/// assert_eq!(again.points()[0], Point { x: 100, y: 200, z: -3 });
/// # Ok::<(), Refusal>(())
/// ```
#[derive(Clone, Debug, PartialEq, Eq)]
pub struct Survey {
    file: Vec<u8>,
}

/// What a call that is lent `most` bytes writes to their front.
fn written(most: usize, write: impl FnOnce(&mut [u8]) -> Result<usize, Refusal>) -> Result<Vec<u8>, Refusal> {
    let mut out = vec![0; most];
    let length = write(&mut out)?;
    out.truncate(length);
    Ok(out)
}

fn word(b: &[u8]) -> u16 {
    u16::from_be_bytes([b[0], b[1]])
}

fn long(b: &[u8]) -> u32 {
    u32::from_be_bytes([b[0], b[1], b[2], b[3]])
}

impl Survey {
    /// A survey of no points.
    pub fn new() -> Survey {
        Survey { file: written(FILE_MOST, bytes::fresh).expect("there is room for every file") }
    }

    /// The survey of a file.
    ///
    /// # Errors
    /// 9 to 15, for what is wrong with the file.
    pub fn from_file(file: &[u8]) -> Result<Survey, Refusal> {
        Ok(Survey { file: written(FILE_MOST, |out| bytes::rewrite(file, out))? })
    }

    /// The survey file's bytes.
    pub fn as_file(&self) -> &[u8] {
        &self.file
    }

    /// How many points are present.
    pub fn count(&self) -> usize {
        bytes::check(&self.file).expect("a survey holds an accepted file")
    }

    /// The points, ascending by x, then y.
    pub fn points(&self) -> Vec<Point> {
        self.file.chunks_exact(5).take(self.count()).map(|b| Point { x: word(b), y: word(&b[2..]), z: b[4] as i8 }).collect()
    }

    /// A new point.
    ///
    /// # Errors
    /// 1 off the domain, 2 for a value out of range, 3 where a point is already, 5 with 256 points present.
    pub fn add(&mut self, x: u32, y: u32, z: i32) -> Result<(), Refusal> {
        self.file = written(FILE_MOST, |out| bytes::add(&self.file, x, y, z, out))?;
        Ok(())
    }

    /// Another value at a location.
    ///
    /// # Errors
    /// 1 off the domain, 2 for a value out of range, 4 where no point is.
    pub fn change(&mut self, x: u32, y: u32, z: i32) -> Result<(), Refusal> {
        self.file = written(FILE_MOST, |out| bytes::change(&self.file, x, y, z, out))?;
        Ok(())
    }

    /// A point taken out.
    ///
    /// # Errors
    /// 1 off the domain, 4 where no point is.
    pub fn drop_point(&mut self, x: u32, y: u32) -> Result<(), Refusal> {
        self.file = written(FILE_MOST, |out| bytes::drop(&self.file, x, y, out))?;
        Ok(())
    }

    /// All points taken out.
    pub fn clear(&mut self) {
        *self = Survey::new();
    }

    /// The interpolated value at a location.
    ///
    /// # Errors
    /// 1 off the domain, 6 with no point present.
    pub fn lookup(&self, x: u32, y: u32) -> Result<Found, Refusal> {
        bytes::lookup(&self.file, x, y)
    }

    /// The same, with the chosen points in order of choice.
    ///
    /// # Errors
    /// 1 off the domain, 6 with no point present.
    pub fn lookup_neighbours(&self, x: u32, y: u32) -> Result<(Found, Vec<Neighbour>), Refusal> {
        let mut records = [0; 100];
        let found = bytes::lookup_neighbours(&self.file, x, y, &mut records)?;
        let neighbours = records.chunks_exact(10).take(found.count).map(neighbour).collect();
        Ok((found, neighbours))
    }

    /// Lookups at many locations, with one reading of the file.
    ///
    /// # Errors
    /// 1 or 6, as the first lookup that is refused.
    pub fn lookup_many(&self, locations: &[(u16, u16)]) -> Result<Vec<Found>, Refusal> {
        let from: Vec<u8> = locations.iter().flat_map(|&(x, y)| [x.to_be_bytes(), y.to_be_bytes()].concat()).collect();
        let mut out = vec![0; 8 * locations.len()];
        bytes::lookup_many(&self.file, &from, &mut out)?;
        Ok(out.chunks_exact(8).map(|b| Found { answer: word(b) as i16, count: usize::from(word(&b[2..])), radius: long(&b[4..]) }).collect())
    }

    /// The grid file.
    ///
    /// # Errors
    /// 7 for a grid that breaks a rule, 6 with no point present.
    pub fn grid_file(&self, grid: &Grid) -> Result<Vec<u8>, Refusal> {
        written(GRID_FILE_MOST, |out| bytes::grid_file(&self.file, grid, out))
    }

    /// The grid's cells, row by row, y ascending, x ascending within a row.
    ///
    /// # Errors
    /// 7 for a grid that breaks a rule, 6 with no point present.
    pub fn grid(&self, grid: &Grid) -> Result<Vec<i16>, Refusal> {
        Ok(GridFile::read(&self.grid_file(grid)?)?.cells)
    }

    /// The Esri ASCII grid: six lines before the cells, then rows from the highest y down, each cell in register steps with eight decimals.
    ///
    /// # Errors
    /// 7 for a grid that breaks a rule, 16 where its two steps differ, 6 with no point present.
    pub fn esri(&self, grid: &Grid) -> Result<String, Refusal> {
        let text = written(ESRI_MOST, |out| bytes::esri(&self.file, grid, out))?;
        Ok(String::from_utf8(text).expect("the text is ASCII"))
    }
}

impl Default for Survey {
    fn default() -> Survey {
        Survey::new()
    }
}

fn neighbour(b: &[u8]) -> Neighbour {
    let kind = match b[9] {
        0 => Kind::Coincident,
        1 => Kind::Inverse,
        2 => Kind::Tapered,
        _ => Kind::Edge,
    };
    Neighbour { x: word(b), y: word(&b[2..]), z: b[4] as i8, distance: long(&b[5..]), kind }
}
