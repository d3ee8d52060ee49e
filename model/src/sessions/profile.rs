//! Checks of the profile in sessions of the bench program.

use super::Session;
use crate::benches::{self, Kind, SMALL};

/// Scale factors, values and the offsets that take the sum to the border and
/// one past it.
const BORDERS: [(u16, u16, u16, u16); 8] = [
    (0x0100, 0x7FFF, 0x0000, 0x0001),
    (0x0100, 0x8000, 0x0000, 0xFFFF),
    (0x0200, 0x3FFF, 0x0001, 0x0002),
    (0x0200, 0xC000, 0x0000, 0xFFFF),
    (0x0200, 0x7FFF, 0x8001, 0x8002),
    (0xFF00, 0x8000, 0xFFFF, 0x0000),
    (0x8000, 0x0100, 0x0000, 0xFFFF),
    (0x0080, 0xFEFF, 0x8081, 0x8080),
];

impl Session {
    /// A check; now and then a line that begins like one.
    pub(super) fn check(&mut self) {
        let bad = self
            .random
            .pick(&["1600", "16F", "160", "160000", "16 ", "16\r", "16G"]);
        let line = if self.random.percent(15) { bad } else { "16" };
        self.line(line.as_bytes());
    }

    /// A small bench that passes or breaks, whatever was there before, and
    /// often a border of it.
    pub(super) fn check_a_bench(&mut self) {
        let kind = self.random.pick(&[
            Kind::Passes,
            Kind::Passes,
            Kind::BreaksFirst,
            Kind::BreaksLater,
        ]);
        let lines = self.lines;
        for write in benches::channels(&mut self.random, kind, &SMALL) {
            self.note_delays(write.start, &write.words);
            self.write(write.start, &write.words);
        }
        // They are no part of the session's own length.
        self.lines = lines;
        self.line(b"16");
        for _ in 0..self.random.below(3) {
            self.check_a_border();
        }
        if self.random.percent(30) {
            let level = self.level();
            self.trigger_level(level);
            let ticks = self.random.pick(&[10, 11, 40, 200]);
            self.run(ticks);
            self.check();
        }
    }

    /// One level whose last point comes to the border of the range, past it,
    /// and past the ramp's end; a check each time.
    pub(super) fn check_a_border(&mut self) {
        let (base, level) = (self.base(), self.level());
        let (scale, value, inside, outside) = self.random.pick(&BORDERS);
        let table = self.tables[0];
        let entry = self.random.pick(&[self.entries[1], self.entries[2]]);
        let end = self.random.pick(&[0, 1, 1, 2, 9, 31, 63]);
        let mut words = [0, 1].repeat(usize::from(end));
        words.extend([value, self.random.pick(&[0, u16::from(end == 63)])]);
        for (half, words) in (0..).zip(words.chunks(64)) {
            self.write(base + 128 * table + 64 * half, words);
        }
        self.write(base + 0x800 + level, &[table]);
        self.write(base + 0x840 + level, &[entry]);
        self.write(base + 0x860 + entry, &[scale]);
        self.write(base + 0x880 + level, &[entry]);
        for offset in [inside, outside] {
            self.write(base + 0x8A0 + entry, &[offset]);
            self.check();
        }
        if end > 0 && self.random.percent(60) {
            // The ramp now ends one point before.
            self.write(base + 128 * table + 2 * end - 1, &[0]);
            self.check();
        }
        if self.random.percent(60) {
            let back = self.random.pick(&[0x800, 0x840]);
            self.write(base + back + level, &[0]);
            self.check();
        }
    }
}
