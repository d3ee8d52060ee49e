//! Sine mode: its mode word, the wave table, and the product of both.

/// The words of a wave table.
pub const WAVE_WORDS: usize = 1024;
/// The words of a wave table lie between minus this and this; it also is the
/// divisor of the product.
const FULL: i64 = 16_384;

/// The mode word, A01: bit 0 sine, bit 2 free run, others zero.
#[derive(Clone, Copy, Debug, PartialEq, Eq)]
pub struct Mode(pub u16);

impl Mode {
    const SINE: u16 = 1;
    const FREE_RUN: u16 = 4;

    pub fn is_accepted(self) -> bool {
        self.0 & !(Mode::SINE | Mode::FREE_RUN) == 0
    }

    pub fn is_sine(self) -> bool {
        self.0 & Mode::SINE != 0
    }

    /// Without bit 0 the bit of free run does nothing.
    pub fn is_free_run(self) -> bool {
        self.is_sine() && self.0 & Mode::FREE_RUN != 0
    }
}

/// A wave table: a quarter of a wave.
#[derive(Clone, Debug)]
pub struct Wave([u16; WAVE_WORDS]);

impl Wave {
    /// The table after a reset.
    pub fn zeros() -> Self {
        Wave([0; WAVE_WORDS])
    }

    /// A table of these words; None if their number is another or a word is
    /// out of range.
    pub fn of(words: &[u16]) -> Option<Wave> {
        let words: [u16; WAVE_WORDS] = words.try_into().ok()?;
        let in_range = |&word: &u16| signed(word).abs() <= FULL;
        words.iter().all(in_range).then_some(Wave(words))
    }

    /// The word that a counter picks: bits 13..4 are its index, bit 14 reads
    /// the table backwards, bit 15 negates the word.
    pub fn word(&self, counter: u16) -> i64 {
        let index = usize::from(counter >> 4 & 0x3FF);
        let backwards = counter & 0x4000 != 0;
        let word = signed(self.0[if backwards { 1023 - index } else { index }]);
        if counter & 0x8000 != 0 {
            -word
        } else {
            word
        }
    }
}

/// The sine of one sample: what its output is made of.
#[derive(Clone, Copy, Debug, PartialEq, Eq)]
pub struct Sine {
    pub counter: u16,
    pub amplitude: u16,
    /// The word of the wave table, negated where bit 15 says so.
    pub word: i64,
}

impl Sine {
    pub fn product(self) -> i64 {
        signed(self.amplitude) * self.word
    }

    /// floor(amplitude × word / 16384), or None where it does not fit.
    pub fn output(self) -> Option<u16> {
        in_range(self.product().div_euclid(FULL))
    }

    /// Whether the floor is another number than the fraction cut off.
    pub fn is_floored(self) -> bool {
        self.product() < 0 && self.product() % FULL != 0
    }
}

/// A word read as a signed number.
pub fn signed(word: u16) -> i64 {
    i64::from(word as i16)
}

/// The word of a signed number, or None outside −32768..32767.
pub fn in_range(number: i64) -> Option<u16> {
    i16::try_from(number).ok().map(|number| number as u16)
}

#[cfg(test)]
mod tests {
    use super::*;

    fn output(amplitude: i16, word: i64) -> Option<i16> {
        let sine = Sine {
            counter: 0,
            amplitude: amplitude as u16,
            word,
        };
        sine.output().map(|word| word as i16)
    }

    #[test]
    fn mode_words() {
        let accepted: Vec<u16> = (0..=u16::MAX)
            .filter(|&word| Mode(word).is_accepted())
            .collect();
        assert_eq!(accepted, [0, 1, 4, 5]);
        let sine = [0, 1, 4, 5].map(|word| Mode(word).is_sine());
        assert_eq!(sine, [false, true, false, true]);
        let free_run = [0, 1, 4, 5].map(|word| Mode(word).is_free_run());
        assert_eq!(free_run, [false, false, false, true]);
    }

    #[test]
    fn the_floor_is_toward_minus_infinity() {
        for (amplitude, word, expected) in [
            (1, 16_384, 1),
            (1, 16_383, 0),
            (1, -1, -1),
            (-1, 1, -1),
            (-1, 16_384, -1),
            (-1, -1, 0),
            (3, 8192, 1),
            (-3, 8192, -2),
            (3, -8192, -2),
            (0, -16_384, 0),
            (32_767, 16_384, 32_767),
            (32_767, -16_384, -32_767),
            (-32_768, 16_384, -32_768),
            (-32_768, -16_383, 32_766),
        ] {
            assert_eq!(
                output(amplitude, word),
                Some(expected),
                "{amplitude} {word}"
            );
        }
    }

    #[test]
    fn one_product_alone_does_not_fit() {
        assert_eq!(output(-32_768, -16_384), None);
        assert!((-16_383..=16_384).all(|word| output(-32_768, word).is_some()));
        assert!((-32_767..=32_767).all(|amplitude| output(amplitude, -16_384).is_some()));
        assert!((-32_768..=32_767).all(|amplitude| output(amplitude, 16_384) == Some(amplitude)));
    }

    #[test]
    fn a_counter_goes_up_the_table_and_back_and_then_negated() {
        let words: Vec<u16> = (0..1024).map(|n| n + 1).collect();
        let wave = Wave::of(&words).unwrap();
        for (counter, word) in [
            (0x0000, 1),
            (0x000F, 1),
            (0x0010, 2),
            (0x3FEF, 1023),
            (0x3FFF, 1024),
            (0x4000, 1024),
            (0x400F, 1024),
            (0x4010, 1023),
            (0x7FFF, 1),
            (0x8000, -1),
            (0x8010, -2),
            (0xBFFF, -1024),
            (0xC000, -1024),
            (0xC010, -1023),
            (0xFFFF, -1),
        ] {
            assert_eq!(wave.word(counter), word, "{counter:04X}");
        }
    }

    #[test]
    fn a_table_has_1024_words_in_range() {
        let mut words = [0x4000; WAVE_WORDS];
        words[1023] = 0xC000;
        assert_eq!(Wave::of(&words).unwrap().word(0x3FF0), -16_384);
        assert!(Wave::of(&words[1..]).is_none());
        assert!(Wave::of(&[]).is_none());
        assert!(Wave::of(&[0; WAVE_WORDS + 1]).is_none());
        for at in [0, 512, 1023] {
            for beyond in [0x4001, 0x7FFF, 0x8000, 0xBFFF] {
                let mut words = [0; WAVE_WORDS];
                words[at] = beyond;
                assert!(Wave::of(&words).is_none(), "{at} {beyond:04X}");
            }
        }
    }
}
