//! The panel: what a word shows, and the plotted points of a table.

use crate::card::Card;
use crate::map::{Place, Region};

/// Microseconds of one sample, as a time step counts them.
const SAMPLE_MICROSECONDS: f64 = 10.0;

/// What the panel shows of a word.
#[derive(Clone, Copy, Debug, PartialEq)]
pub enum Reading {
    Nothing,
    Volts(f64),
    Factor(f64),
    Microseconds(u16),
    Samples(u16),
    Plain(u16),
}

/// A plotted point: volts, and microseconds since the start.
#[derive(Clone, Copy, Debug, PartialEq)]
pub struct Plotted {
    pub volts: f64,
    pub microseconds: f64,
}

/// "Volts, signed word × 10 / 32768."
fn volts(word: u16) -> f64 {
    f64::from(word as i16) * 10.0 / 32768.0
}

/// "Scale words: signed word / 256."
fn factor(word: u16) -> f64 {
    f64::from(word as i16) / 256.0
}

/// What the word shows at the address; the address and the word alone decide.
pub fn reading(address: u16, word: u16) -> Reading {
    let Some(place) = Place::find(address) else {
        return Reading::Nothing;
    };
    match place.region {
        Region::Tables if place.index % 2 == 0 => Reading::Volts(volts(word)),
        Region::Tables => Reading::Samples(word),
        Region::Output | Region::Offsets | Region::LoadedOffset => Reading::Volts(volts(word)),
        Region::Scales | Region::LoadedScale => Reading::Factor(factor(word)),
        Region::Delays => Reading::Microseconds(word),
        _ => Reading::Plain(word),
    }
}

/// A point of a table as it stands in the settings. A point past the end, or
/// a channel, table or point that is not there, shows nothing.
pub fn plotted(card: &Card, channel: usize, table: usize, point: usize) -> Option<Plotted> {
    let words = card.table(channel, table)?;
    let &value = words.get(2 * point)?;
    let mut microseconds = 0.0;
    for earlier in words.chunks_exact(2).take(point) {
        // A point with time step 0 before this one is the table's end.
        if earlier[1] == 0 {
            return None;
        }
        microseconds += f64::from(earlier[1]) * SAMPLE_MICROSECONDS;
    }
    Some(Plotted {
        volts: volts(value),
        microseconds,
    })
}

#[cfg(test)]
mod tests {
    use super::*;
    use crate::edition::Edition;

    /// The kind of what an address shows, by its first letter.
    fn kind(address: u16) -> char {
        let name = format!("{:?}", reading(address, 1));
        name.chars().next().unwrap()
    }

    fn card_with(start: u16, words: &[u16]) -> Card {
        let mut card = Card::fresh(Edition::One);
        assert_eq!(card.write(start, words.len(), words).processed, words.len());
        card
    }

    #[test]
    fn kinds_by_address() {
        let rows = [
            (0x0000, 0x07FF, "VS"),
            (0x0800, 0x081F, "PP"),
            (0x0820, 0x083F, "NN"),
            (0x0840, 0x085F, "PP"),
            (0x0860, 0x087F, "FF"),
            (0x0880, 0x089F, "PP"),
            (0x08A0, 0x08BF, "VV"),
            (0x08C0, 0x08DF, "NN"),
            (0x08E0, 0x08FF, "MM"),
            (0x0900, 0x097F, "PP"),
            (0x0980, 0x09FF, "NN"),
            (0x0A00, 0x0A07, "PPNNVNNN"),
            (0x0A08, 0x0A2F, "NN"),
            (0x0A30, 0x0A3A, "PFVPPNNNNPN"),
            (0x0A3B, 0x0FFF, "NN"),
        ];
        for (first, last, kinds) in rows {
            for (address, expected) in (first..=last).zip(kinds.chars().cycle()) {
                for base in [0x0000, 0x1000, 0x2000, 0x3000] {
                    assert_eq!(kind(base + address), expected, "{address:04X}");
                }
            }
        }
    }

    #[test]
    fn the_card_s_own_words_are_plain_and_the_rest_shows_nothing() {
        for address in 0x4000..=0xFFFF {
            let listed = matches!(address, 0x4000..=0x4202 | 0x4210 | 0x4211 | 0x4220..=0x423F);
            let expected = if listed { 'P' } else { 'N' };
            assert_eq!(kind(address), expected, "{address:04X}");
        }
    }

    #[test]
    fn every_word_is_exact() {
        for word in 0..=0xFFFF {
            let signed = f64::from(word as i16);
            assert_eq!(volts(word) * 32768.0, 10.0 * signed);
            assert_eq!(factor(word) * 256.0, signed);
        }
        assert_eq!(reading(0x0A04, 0x8000), Reading::Volts(-10.0));
        assert_eq!(reading(0x0A32, 0x4000), Reading::Volts(5.0));
        assert_eq!(reading(0x0A31, 0xFF80), Reading::Factor(-0.5));
        assert_eq!(reading(0x08E0, 0xFFFF), Reading::Microseconds(65535));
        assert_eq!(reading(0x0081, 0xFFFF), Reading::Samples(65535));
        assert_eq!(reading(0x4210, 0xFFFF), Reading::Plain(65535));
    }

    #[test]
    fn the_end_point_shows_and_the_next_does_not() {
        let card = card_with(0x2280, &[0, 4, 0x4000, 2, 0xC000, 0, 7, 1]);
        let at = |point| plotted(&card, 2, 5, point).map(|at| (at.volts, at.microseconds));
        assert_eq!(at(0), Some((0.0, 0.0)));
        assert_eq!(at(1), Some((5.0, 40.0)));
        assert_eq!(at(2), Some((-5.0, 60.0)));
        assert_eq!(at(3), None);
        // An untouched table ends at its point 0.
        assert!(plotted(&card, 0, 0, 0).is_some());
        assert!(plotted(&card, 0, 0, 1).is_none());
    }

    #[test]
    fn the_largest_time_is_at_point_63() {
        let card = card_with(0x3780, &[0xFFFF; 128]);
        let last = plotted(&card, 3, 15, 63).unwrap();
        assert_eq!(last.microseconds, 41_287_050.0);
        assert_eq!(last.volts * 32768.0, -10.0);
        assert!(plotted(&card, 3, 15, 64).is_none());
        assert!(plotted(&card, 3, 16, 0).is_none());
        assert!(plotted(&card, 4, 0, 0).is_none());
    }
}
