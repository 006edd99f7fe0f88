//! Where the map lies in the picture, and where in it a location of the domain is.
use super::text::px;
use shepard::{Grid, Point};

/// Room around the map, in pixels, for the title, the axes and the colour bar.
const LEFT: f64 = 112.0;
const RIGHT: f64 = 148.0;
const TOP: f64 = 104.0;
const BOTTOM: f64 = 72.0;

/// The map's longer side, and the least that its shorter side has; between them a step in x is as long as a step in y.
const LONGER: f64 = 640.0;
const SHORTER_LEAST: f64 = 240.0;

/// The map's rectangle, and the location of its lower left corner, half a step before the first cell's.
pub struct Frame {
    pub left: f64,
    pub top: f64,
    pub width: f64,
    pub height: f64,
    corner: (f64, f64),
    steps: (f64, f64),
}

impl Frame {
    pub fn of(grid: &Grid) -> Frame {
        let (step_x, step_y) = (f64::from(grid.step_x), f64::from(grid.step_y));
        let steps = (f64::from(grid.columns) * step_x, f64::from(grid.rows) * step_y);
        let side = |n: f64| (LONGER * n / steps.0.max(steps.1)).max(SHORTER_LEAST);
        let corner = (f64::from(grid.x0) - step_x / 2.0, f64::from(grid.y0) - step_y / 2.0);
        let (width, height) = (side(steps.0), side(steps.1));
        Frame { left: LEFT + (LONGER - width) / 2.0, top: TOP, width, height, corner, steps }
    }

    pub fn right(&self) -> f64 {
        self.left + self.width
    }

    pub fn bottom(&self) -> f64 {
        self.top + self.height
    }

    pub fn picture_width(&self) -> f64 {
        LEFT + LONGER + RIGHT
    }

    pub fn picture_height(&self) -> f64 {
        self.bottom() + BOTTOM
    }

    /// How far to the right a location with this x is.
    pub fn across(&self, x: u16) -> f64 {
        self.left + (f64::from(x) - self.corner.0) / self.steps.0 * self.width
    }

    /// How far down a location with this y is; y goes upwards.
    pub fn down(&self, y: u16) -> f64 {
        self.bottom() - (f64::from(y) - self.corner.1) / self.steps.1 * self.height
    }

    /// Whether a point is on the map, its edge included.
    pub fn has(&self, point: &Point) -> bool {
        let (x, y) = (f64::from(point.x) - self.corner.0, f64::from(point.y) - self.corner.1);
        0.0 <= x && x <= self.steps.0 && 0.0 <= y && y <= self.steps.1
    }

    pub fn border(&self) -> String {
        format!(
            "<rect x=\"{}\" y=\"{}\" width=\"{}\" height=\"{}\" fill=\"none\" stroke=\"#222\"/>\n",
            px(self.left),
            px(self.top),
            px(self.width),
            px(self.height)
        )
    }
}
