// Values of sines by document 01's rule: a quarter-wave table of 1,025 entries, straight lines between them as exact fractions, halves rounded away from zero.

use crate::original::SineType;

const STEPS: i128 = 1024;
const TOP: i128 = 1 << 20;

/// The whole numbers nearest to 2^20 times the sine of k/1,024 of a right angle.
pub struct Quarter([i128; 1025]);

impl Quarter {
    pub fn new() -> Quarter {
        let entry = |k: usize| (TOP as f64 * (k as f64 / STEPS as f64 * std::f64::consts::FRAC_PI_2).sin()).round() as i128;
        Quarter(std::array::from_fn(entry))
    }

    /// `length` * 2^20 times the sine of position / length of a right angle.
    fn sine(&self, position: i128, length: i128) -> i128 {
        let (entry, rest) = ((position * STEPS / length) as usize, position * STEPS % length);
        let next = self.0[(entry + 1).min(STEPS as usize)];
        self.0[entry] * (length - rest) + next * rest
    }

    /// The same of the cosine, by symmetry.
    fn cosine(&self, position: i128, length: i128) -> i128 {
        self.sine(length - position, length)
    }

    /// The same of the cosine of position / length of a full turn.
    fn turn(&self, position: i128, length: i128) -> i128 {
        let (quarter, rest) = (position * 4 / length, position * 4 % length);
        match quarter {
            0 => self.cosine(rest, length),
            1 => -self.sine(rest, length),
            2 => -self.cosine(rest, length),
            _ => self.sine(rest, length),
        }
    }

    /// The value at a position below the length.
    pub fn value(&self, shape: SineType, low: isize, high: isize, position: isize, length: isize) -> isize {
        let (low, high, position, length) = (low as i128, high as i128, position as i128, length as i128);
        let whole = length * TOP;
        let (part, of) = match shape {
            SineType::Sine => (whole - self.turn(position, length), 2 * whole),
            SineType::UpSine => (self.sine(position, length), whole),
            SineType::DownSine => (self.cosine(position, length), whole),
        };
        rounded(low * of + (high - low) * part, of) as isize
    }
}

/// The whole number nearest to above / below, halves away from zero.
fn rounded(above: i128, below: i128) -> i128 {
    above.signum() * ((2 * above.abs() + below) / (2 * below))
}
