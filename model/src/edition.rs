//! The hardware editions: how a sample's fraction becomes a whole number.

use crate::sine::signed;

/// The hardware edition, "chosen with the fresh card".
#[derive(Clone, Copy, Debug, PartialEq, Eq)]
pub enum Edition {
    One,
    Two,
}

impl Edition {
    #[cfg(test)]
    pub const BOTH: [Edition; 2] = [Edition::One, Edition::Two];

    /// S·f/256, cut once in edition 1; edition 2 "cuts f to a whole number
    /// (floor) before scaling, then cuts again".
    pub fn scaled(self, scale: u16, f: Fraction) -> i64 {
        let f = match self {
            Edition::One => f,
            Edition::Two => Fraction::whole(f.floor()),
        };
        let scaled = Fraction {
            top: signed(scale) * f.top,
            bottom: 256 * f.bottom,
        };
        scaled.floor()
    }
}

/// "The scale factor's size rounded up, on the side of the factor's sign": the
/// most that edition 1 is above edition 2.
pub fn bound(scale: u16) -> i64 {
    let up = (signed(scale).abs() + 255) / 256;
    up * signed(scale).signum()
}

/// The f of a sample, an exact fraction; its bottom is positive.
#[derive(Clone, Copy, Debug, PartialEq, Eq)]
pub struct Fraction {
    pub top: i64,
    pub bottom: i64,
}

impl Fraction {
    /// The f at a table point.
    pub fn whole(number: i64) -> Self {
        Fraction {
            top: number,
            bottom: 1,
        }
    }

    pub fn is_whole(self) -> bool {
        self.top % self.bottom == 0
    }

    /// Toward minus infinity: the Euclidean quotient by a positive number.
    fn floor(self) -> i64 {
        self.top.div_euclid(self.bottom)
    }
}
