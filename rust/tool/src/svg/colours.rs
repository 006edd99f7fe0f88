//! The colour scales, both of even steps in lightness, so that they can be read by the colour-blind and in grey.
use super::Of;

type Colour = [i64; 3];

/// Viridis: from dark violet to yellow.
const VIRIDIS: [Colour; 9] =
    [[68, 1, 84], [71, 45, 123], [59, 82, 139], [44, 114, 142], [33, 144, 140], [39, 173, 129], [93, 200, 99], [170, 220, 50], [253, 231, 37]];

/// Magma turned round: what is near a point is pale, what is far from all is black.
const PALE_TO_BLACK: [Colour; 9] =
    [[252, 253, 191], [254, 194, 135], [251, 136, 97], [230, 81, 100], [182, 54, 121], [130, 38, 129], [81, 18, 124], [29, 17, 71], [0, 0, 4]];

/// The last of the levels that cells are coloured by.
pub const LAST: usize = 128;

/// From numbers to colours: the least number has level 0, the greatest the last.
pub struct Scale {
    pub least: i64,
    pub greatest: i64,
    anchors: &'static [Colour; 9],
}

impl Scale {
    /// Answers go from the least cell to the greatest, distances from 0.
    pub fn of(cells: &[i64], of: &Of) -> Scale {
        let least = cells.iter().copied().min().unwrap_or(0);
        let greatest = cells.iter().copied().max().unwrap_or(0);
        match of {
            Of::Answer => Scale { least, greatest, anchors: &VIRIDIS },
            Of::Support => Scale { least: 0, greatest, anchors: &PALE_TO_BLACK },
        }
    }

    /// The level nearest to a number, the middle one where the scale has one number only.
    pub fn level(&self, number: i64) -> usize {
        let span = self.greatest - self.least;
        if span == 0 {
            return LAST / 2;
        }
        ((2 * LAST as i64 * (number - self.least) + span) / (2 * span)) as usize
    }

    /// The colour of a level, between two anchors in proportion.
    pub fn colour(&self, level: usize) -> String {
        let last = LAST as i64;
        let along = level as i64 * (self.anchors.len() as i64 - 1);
        let (i, rest) = ((along / last) as usize, along % last);
        let (from, to) = (self.anchors[i], self.anchors[(i + 1).min(self.anchors.len() - 1)]);
        let channel = |k: usize| (from[k] * (last - rest) + to[k] * rest + last / 2) / last;
        format!("#{:02x}{:02x}{:02x}", channel(0), channel(1), channel(2))
    }

    /// The anchors from the least number to the greatest, as stops of a gradient.
    pub fn stops(&self) -> String {
        let part = |i: usize| i as f64 / (self.anchors.len() - 1) as f64;
        let stop = |(i, [r, g, b]): (usize, &Colour)| format!("<stop offset=\"{}\" stop-color=\"#{r:02x}{g:02x}{b:02x}\"/>", part(i));
        self.anchors.iter().enumerate().map(stop).collect()
    }
}
