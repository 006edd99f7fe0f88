//! A grid's six numbers, and a grid file that was read.
use crate::{bytes, Refusal};

/// A grid's six numbers: the first column and row stand at (x0, y0), the others a step apart.
#[derive(Clone, Copy, Debug, PartialEq, Eq)]
pub struct Grid {
    pub x0: u16,
    pub y0: u16,
    pub step_x: u16,
    pub step_y: u16,
    pub columns: u16,
    pub rows: u16,
}

impl Grid {
    /// The grid of six numbers of two bytes each, as they stand first in a program's input.
    pub fn from_bytes(six: &[u8; 12]) -> Grid {
        let at = |i: usize| u16::from_be_bytes([six[2 * i], six[2 * i + 1]]);
        Grid { x0: at(0), y0: at(1), step_x: at(2), step_y: at(3), columns: at(4), rows: at(5) }
    }

    /// The six numbers, two bytes each.
    pub fn to_bytes(&self) -> [u8; 12] {
        let mut six = [0; 12];
        for (at, n) in six.chunks_exact_mut(2).zip([self.x0, self.y0, self.step_x, self.step_y, self.columns, self.rows]) {
            at.copy_from_slice(&n.to_be_bytes());
        }
        six
    }
}

/// A grid file that was accepted: the six numbers, and the cells row by row, y ascending, x ascending within a row.
///
/// ```
/// use shepard::{Grid, GridFile, Refusal, Survey};
/// let mut survey = Survey::new();
/// survey.add(3, 0, -7)?;
/// let grid = Grid { x0: 0, y0: 0, step_x: 1, step_y: 1, columns: 2, rows: 1 };
/// let file = survey.grid_file(&grid)?;
/// assert_eq!(GridFile::read(&file)?, GridFile { grid, cells: vec![-1792, -1792] });
/// assert_eq!(GridFile::read(&file[1..]), Err(Refusal::FILE_LENGTH));
/// # Ok::<(), Refusal>(())
/// ```
#[derive(Clone, Debug, PartialEq, Eq)]
pub struct GridFile {
    pub grid: Grid,
    pub cells: Vec<i16>,
}

impl GridFile {
    /// What a grid file holds.
    ///
    /// # Errors
    /// 9 for a length that no grid file has, 10 for the last four bytes, 7 for a grid that breaks a rule, 12 for a back distance or a length that does not
    /// go with the six numbers.
    pub fn read(file: &[u8]) -> Result<GridFile, Refusal> {
        let grid = bytes::grid_check(file)?;
        let mut cells = vec![0; usize::from(grid.columns) * usize::from(grid.rows)];
        bytes::grid_cells(file, &mut cells)?;
        Ok(GridFile { grid, cells })
    }
}
