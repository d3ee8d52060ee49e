//! The two editions in sessions of the bench program.

use super::Session;

/// A ramp whose fractions the editions round apart.
#[derive(Clone, Copy)]
struct Rounded {
    scale: u16,
    offset: u16,
    /// Two values and the time step between them.
    from: u16,
    to: u16,
    steps: u16,
}

/// Factor, values and time step: with sample 1 just below a whole f the
/// editions are as far apart as they can be.
const FURTHEST: [(u16, u16, u16, u16); 8] = [
    (0x0103, 86, 85, 130),
    (0x0103, 0xFF56, 0xFF55, 130),
    (0x0203, 86, 85, 300),
    (0x7FFF, 2, 1, 130),
    (0xFEFD, 1, 0, 130),
    (0xFDFD, 1, 0, 300),
    (0x8000, 1, 0, 130),
    (0xFE00, 1, 0, 3),
];

/// Factor, offset and values: three steps between the values, of which one
/// edition has more out of range than the other.
const BORDERS: [(u16, u16, u16, u16); 4] = [
    (0x0200, 0x0001, 0x3FFF, 0x4000),
    (0x0200, 0xFFFF, 0xC000, 0xC001),
    (0xFE00, 0x0000, 0xC000, 0xC001),
    (0xFE00, 0xFFFF, 0x3FFF, 0x4000),
];

/// Lines that begin like a fresh card's frame and are none.
const NO_FRAMES: [&str; 16] = [
    "17", "170", "171", "172", "1700", "1703", "17FF", "1710", "1720", "17010", "17020", "170101",
    "170001", "170002", "17000002", "17FF02",
];

impl Session {
    /// Every second session plays on a card of edition 2, of the others some
    /// on a fresh card and some on the card of the start.
    pub(super) fn begin_on_an_edition(&mut self, index: u64) {
        if index % 2 == 0 {
            self.fresh_card(2);
        } else if self.random.percent(50) {
            self.fresh_card(1);
        }
    }

    fn fresh_card(&mut self, edition: u16) {
        self.edition = edition;
        self.line(format!("17{edition:02X}").as_bytes());
    }

    /// A reset, or a fresh card of the same edition or of the other one.
    pub(super) fn begin_anew(&mut self) {
        match self.random.below(10) {
            0..=5 => self.line(b"18"),
            6 | 7 => self.fresh_card(self.edition),
            _ => self.fresh_card(3 - self.edition),
        }
        self.delays = [[0; 32]; 4];
        self.waved.clear();
        self.waves = self.waves.max(1);
    }

    pub(super) fn no_edition(&mut self) {
        let line = self.random.pick(&NO_FRAMES);
        self.line(line.as_bytes());
    }

    /// A ramp that the editions round apart, and now and then the same one on
    /// a card that begins anew.
    pub(super) fn round_a_ramp(&mut self) {
        let (base, ramp) = (self.base(), self.rounded());
        self.play_rounded(base, ramp);
        if self.random.percent(25) {
            self.begin_anew();
            self.play_rounded(base, ramp);
            self.set_up();
        }
    }

    fn rounded(&mut self) -> Rounded {
        let (scale, from, to, steps) = self.random.pick(&FURTHEST);
        let offset = self.random.pick(&[0, 0, 7, 0xFFF0]);
        match self.random.below(8) {
            0..=2 => Rounded {
                scale,
                offset,
                from,
                to,
                steps,
            },
            3 => {
                let (scale, offset, from, to) = self.random.pick(&BORDERS);
                Rounded {
                    scale,
                    offset,
                    from,
                    to,
                    steps: 3,
                }
            }
            _ => Rounded {
                scale: self.rounding_scale(),
                offset,
                from: self.value(),
                to: self.value(),
                steps: self.random.pick(&[3, 5, 6, 7, 11, 130]),
            },
        }
    }

    /// Factors of either sign, seldom the one with which the editions agree.
    fn rounding_scale(&mut self) -> u16 {
        let near = self.random.within(0x0040, 0x0400);
        let below = 0_u16.wrapping_sub(self.random.within(1, 0x0400));
        let one = self.random.pick(&[0x0100, 0x0200, 0xFF00, 0xFE00]);
        self.random.pick(&[near, near, below, below, one])
    }

    /// Writes the ramp, triggers it and looks at its first samples.
    fn play_rounded(&mut self, base: u16, ramp: Rounded) {
        let level = self.level();
        let (table, entry) = (self.tables[0], self.entries[1]);
        let last = self.random.pick(&[ramp.to, ramp.from, 0]);
        let words = [ramp.from, ramp.steps, ramp.to, 2, last, 0];
        self.write(base + 128 * table, &words);
        for (map, entry) in [(0x800, table), (0x840, entry), (0x880, entry)] {
            self.write(base + map + level, &[entry]);
        }
        self.write(base + 0x860 + entry, &[ramp.scale]);
        self.write(base + 0x8A0 + entry, &[ramp.offset]);
        self.set_delay(base, level, 10);
        self.write(base + 0xA00, &[1]);
        if self.random.percent(80) {
            self.write(base + 0xA01, &[0]);
        }
        self.write(0x4202, &[level]);
        for _ in 0..self.random.within(3, 8) {
            self.run(10);
        }
        let word = self.random.pick(&[0xA04, 0xA39, 0xA34]);
        self.read(base + word, 1);
    }
}

#[cfg(test)]
mod tests {
    use super::super::session;
    use super::super::tests::counts;
    use crate::program::{self, Program};

    const SESSIONS: u64 = 200;

    #[test]
    fn half_of_the_sessions_begin_on_edition_2() {
        let begins = |index, line: &[u8]| session(Program::Bench, 3, index).starts_with(line);
        let mut fresh = 0;
        for index in 0..SESSIONS {
            assert_eq!(begins(index, b"1702"), index % 2 == 0, "{index}");
            fresh += u64::from(begins(index, b"1701"));
        }
        assert!((SESSIONS / 10..SESSIONS / 2).contains(&fresh), "{fresh}");
        let line_program = |index| session(Program::Rampcard, 3, index);
        assert!((0..SESSIONS).all(|index| !line_program(index).starts_with(b"17")));
    }

    /// On most cards of edition 2 there is a sample that edition 1 has not,
    /// and there are many that an answer shows.
    #[test]
    fn the_editions_make_a_difference() {
        let things = [
            "sessions with a sample on edition 2 whose sum is not edition 1's",
            "such samples whose output an answer to ticks shows",
            "resets on edition 2 behind which a sum is not edition 1's",
        ];
        let [sessions, shown, resets] = counts(Program::Bench, SESSIONS, things);
        assert!(3 * sessions > SESSIONS, "{sessions}");
        assert!(shown > SESSIONS, "{shown}");
        assert!(20 * resets > SESSIONS, "{resets}");
    }

    /// The answers to a session's lines on one card of the edition.
    fn answers(lines: &[&[u8]], edition: &[u8]) -> Vec<String> {
        let input = [&[edition], lines].concat().join(&b"\n"[..]);
        let answers = program::answers(Program::Bench, &input);
        answers.lines().map(String::from).collect()
    }

    /// Whatever a session does: but for outputs, and words read, which may be
    /// outputs or overflow counts, all answers are those of the other edition.
    #[test]
    fn other_answers_are_the_same_in_both_editions() {
        let sample = |answer: &str| ["82", "83", "84", "92"].contains(&&answer[..2]);
        for index in 0..60 {
            let text = session(Program::Bench, 6, index);
            let lines: Vec<&[u8]> = text
                .split(|&byte| byte == b'\n')
                .filter(|line| !line.starts_with(b"17"))
                .collect();
            let [one, two] = [&b"1701"[..], b"1702"].map(|edition| answers(&lines, edition));
            assert_eq!(one.len(), two.len());
            for (one, two) in one.iter().zip(&two).filter(|(one, _)| !sample(one)) {
                assert_eq!(one, two, "{index}");
            }
        }
    }
}
