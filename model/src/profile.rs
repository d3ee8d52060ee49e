//! The profile of a lamp bench: no overflow of a ramp sum at any level.

use crate::card::{Card, CHANNELS};
use crate::channel::{Ramp, LEVELS};
use crate::edition::{Edition, Fraction};
use crate::sine::signed;

/// The first place that breaks the profile: the first channel, in it the first
/// level, and of that level's table the first point whose own sum is out of
/// range.
#[derive(Clone, Copy, Debug, PartialEq, Eq)]
pub struct Break {
    pub channel: usize,
    pub level: usize,
    pub table: u16,
    pub point: usize,
}

/// Where the settings break the profile, or None if the bench passes. Every
/// level of every channel counts, enabled or not, with a trigger or without.
pub fn check(card: &Card) -> Option<Break> {
    for channel in 0..CHANNELS {
        for level in 0..LEVELS {
            let ramp = card.ramp(channel, level);
            let table = card.table_of(channel, ramp);
            if let Some(point) = first_out_of_range(card.edition(), ramp, table) {
                return Some(Break {
                    channel,
                    level,
                    table: ramp.table,
                    point,
                });
            }
        }
    }
    None
}

/// The first point of a ramp whose sum is out of range. From point to point
/// the sums go one way, so the samples between two points in range are too; an f
/// that edition 2 cuts is still no less than the lower of their values.
fn first_out_of_range(edition: Edition, ramp: Ramp, table: &[u16]) -> Option<usize> {
    for (point, words) in table.chunks_exact(2).enumerate() {
        let f = Fraction::whole(signed(words[0]));
        if ramp.sample(edition, f).is_none() {
            return Some(point);
        }
        // "Points beyond the ramp's end do not count."
        if words[1] == 0 {
            break;
        }
    }
    None
}

/// The verdict as the program of that name writes it.
pub fn verdict(card: &Card) -> Vec<u8> {
    let line = match check(card) {
        None => "the bench passes: every sum of every ramp is in range\n".to_string(),
        Some(Break {
            channel,
            level,
            table,
            point,
        }) => format!(
            "the bench breaks the profile, first at channel {channel}, level {level}: \
            the sum at point {point} of table {table} is out of range\n"
        ),
    };
    line.into_bytes()
}

#[cfg(test)]
#[path = "profile_tests.rs"]
mod tests;
