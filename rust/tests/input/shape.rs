//! How the points of a random survey lie.
use super::Random;

type Location = (u32, u32);

pub enum Shape {
    Uniform,
    Diagonal,
    Close,
    /// 272 equal steps from a location, each of 0 to 15 in x and in y; with a width of 2 some points are one off the line.
    Line {
        from: Location,
        step: Location,
        falling: bool,
        width: u32,
    },
    Clusters(Vec<Location>),
    /// 16 by 16 locations.
    Lattice {
        step: Location,
    },
}

impl Shape {
    pub fn any(random: &mut Random) -> Shape {
        match random.below(6) {
            0 => Shape::Uniform,
            1 => Shape::Diagonal,
            2 => Shape::Close,
            3 => Shape::line(random),
            4 => Shape::Clusters((0..2 + random.below(4)).map(|_| random.within(4064)).collect()),
            _ => Shape::Lattice { step: (1 << random.below(9), 1 << random.below(9)) },
        }
    }

    fn line(random: &mut Random) -> Shape {
        let step = random.within(16);
        let from = (random.below(4095 - 272 * step.0), random.below(4095 - 272 * step.1));
        Shape::Line { from, step, falling: random.below(2) == 0, width: 1 + random.below(2) }
    }

    pub fn location(&self, random: &mut Random) -> Location {
        match self {
            Shape::Uniform => random.within(4096),
            Shape::Diagonal => {
                let x = random.below(4096 - 255);
                (x, x + random.below(256))
            }
            Shape::Close => random.within(32),
            Shape::Line { from, step, falling, width } => {
                let i = random.below(273);
                let y = from.1 + i * step.1 + random.below(*width);
                (from.0 + i * step.0, if *falling { 4095 - y } else { y })
            }
            Shape::Clusters(centres) => {
                let (centre, off) = (centres[random.below(centres.len() as u32) as usize], random.within(32));
                (centre.0 + off.0, centre.1 + off.1)
            }
            Shape::Lattice { step } => {
                let (column, row) = random.within(16);
                (column * step.0, row * step.1)
            }
        }
    }
}
