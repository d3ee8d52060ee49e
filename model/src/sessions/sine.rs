//! Sine mode, free run and wave tables in sessions of both programs.

use super::{digits, Session};
use crate::program::Program;
use crate::sine::WAVE_WORDS;

/// Mode words: sine, and sine with free run.
const SINE: u16 = 1;
const FREE_RUN: u16 = 5;

/// Words at the ends of what a wave table takes, and small ones.
const WAVE_EDGES: [u16; 10] = [
    0x4000, 0x4000, 0xC000, 0xC000, 0x3FFF, 0xC001, 0x2000, 0x0001, 0xFFFF, 0x0000,
];

/// Words that a wave table does not take.
const BAD_WORDS: [u16; 6] = [0x4001, 0xBFFF, 0x7FFF, 0x8000, 0x5A5A, 0xA000];

/// Settings.
impl Session {
    /// A channel's waves ready for every level of the session.
    pub(super) fn set_up_sine(&mut self, base: u16) {
        let levels = self.levels;
        for level in levels {
            self.write_wave_maps(base, level);
        }
        self.write_waves(base);
        let mode = self.random.pick(&[SINE, SINE, FREE_RUN, FREE_RUN, 4]);
        self.write(base + 0xA01, &[mode]);
        // One wave table is for a later moment.
        if self.waves > 1 || self.waved.is_empty() {
            self.hand_in(base >> 12);
        }
    }

    /// The level's frequency and phase map entries.
    fn write_wave_maps(&mut self, base: u16, level: u16) {
        for map in [0x900, 0x940] {
            if self.random.percent(70) {
                self.write_map(base + map, level);
            }
        }
    }

    /// Frequencies and phases of the session's entries; entry 0 is no other.
    fn write_waves(&mut self, base: u16) {
        for entry in self.entries {
            for row in [0x920, 0x960] {
                if self.random.percent(70) {
                    let word = self.wave_step();
                    self.write(base + row + entry, &[word]);
                }
            }
        }
    }

    /// A frequency or a phase.
    fn wave_step(&mut self) -> u16 {
        let near = self.random.below(0x200);
        let any = self.random.word();
        let quarters = [0x4000, 0x8000, 0xC000, 0x3FF0, 0x7FFF, 0xFFF0, 0x0010];
        let quarter = self.random.pick(&quarters);
        self.random.pick(&[0, near, quarter, quarter, quarter, any])
    }

    /// Writes to the sine settings, at any moment.
    pub(super) fn change_sine(&mut self) {
        let base = self.base();
        let level = self.level();
        match self.random.below(4) {
            0 => self.write_wave_maps(base, level),
            1 => self.write_waves(base),
            2 => {
                let words = [self.wave_step(), self.wave_step(), self.wave_step()];
                let row = self.random.pick(&[0x920, 0x960]);
                self.write(base + row + self.entries[1].min(29), &words);
            }
            _ => self.switch_mode(base),
        }
    }

    /// Sessions without sine mode at their begin seldom switch to it.
    fn switch_mode(&mut self, base: u16) {
        let mode = if self.sine || self.random.percent(20) {
            self.random.pick(&[0, SINE, SINE, FREE_RUN, FREE_RUN, 4])
        } else {
            self.random.pick(&[0, 0, 4])
        };
        self.write(base + 0xA01, &[mode]);
    }

    /// Words that A01 or a map refuses, alone or after one that it takes.
    pub(super) fn write_bad_sine(&mut self) {
        let base = self.base();
        let any = self.random.word() | 0x0020;
        if self.random.percent(60) {
            let bad = self.random.pick(&[2, 3, 6, 7, 8, 0x0101, 0x8005, any]);
            let words = [bad, 1];
            let count = usize::from(self.random.within(1, 2));
            return self.write(base + 0xA01, &words[..count]);
        }
        let row = self.random.pick(&[0x900, 0x940]);
        let bad = self.random.pick(&[32, 33, 63, 0x0100, 0xFFFF, any]);
        let words = [self.random.below(32), bad, 0];
        let first = usize::from(self.random.percent(50));
        let at = self.random.below(30);
        self.write(base + row + at, &words[first..]);
    }

    /// Reads of A01 and of the four rows, often to a row's end or past it.
    pub(super) fn read_sine(&mut self) {
        let base = self.base();
        if self.random.percent(30) {
            let count = self.random.within(1, 2);
            return self.read(base + 0xA01, count);
        }
        let row = 0x900 + 0x20 * self.random.below(4);
        let entries = self.entries;
        let at = self.random.pick(&entries);
        let count = self.random.pick(&[1, 2, 32 - at, 33 - at, 32]);
        self.read(base + row + at, count);
    }
}

/// Moments.
impl Session {
    /// A short ramp in sine mode on one channel, most often with free run, and
    /// something on the tick of one of its samples, mostly after its end.
    pub(super) fn sine_moment(&mut self) {
        let base = self.base_of_a_wave();
        let level = self.levels[0];
        let last = self.write_sine_ramp(base, level);
        self.write_wave_maps(base, level);
        self.write_waves(base);
        self.write(base + 0xA00, &[1]);
        self.set_delay(base, level, 10);
        self.start_sine(base, level);
        // Sample k comes on tick 10 + 10k; the end's is sample `last`.
        let beside = self.random.pick(&[0, 0, 0, 1, 9]);
        let tick = 10 * (last + self.random.below(5)) + 10 + beside;
        self.meet_the_sine(base, tick);
        // Whether it still runs or free-runs shows here.
        if self.random.percent(50) {
            self.write_output_of(base);
        }
        self.read(base + 0xA39, 1);
        self.look_around(base);
        if self.random.percent(if self.sine { 30 } else { 80 }) {
            self.write(base + 0xA01, &[0]);
        }
    }

    /// Loads the level in sine mode, with things that may and may not reach
    /// the ramp before the load and after it.
    fn start_sine(&mut self, base: u16, level: u16) {
        let channel = base >> 12;
        let chance = if self.waved.contains(&channel) {
            10
        } else {
            50
        };
        if self.random.percent(chance) {
            self.hand_in(channel);
        }
        match self.random.below(6) {
            0 => self.plain_ramp(base),
            1 => self.write_output_of(base),
            _ => {}
        }
        let mode = self.random.pick(&[SINE, FREE_RUN, FREE_RUN, FREE_RUN]);
        self.write(base + 0xA01, &[mode]);
        self.trigger_surely(level);
        if self.random.percent(2 * chance) {
            self.hand_in(channel);
        }
        match self.random.below(8) {
            0 => self.write_output_of(base),
            1 => self.switch_mode(base),
            2 => self.write_waves(base),
            _ => {}
        }
    }

    /// A plain ramp of one point before a sine, for its amplitude.
    fn plain_ramp(&mut self, base: u16) {
        let level = self.levels[2];
        let table = self.tables[2];
        let value = self.value();
        self.write(base + 0xA01, &[0]);
        self.write(base + 0x800 + level, &[table]);
        self.write(base + 128 * table, &[value, 0]);
        self.set_delay(base, level, 10);
        self.trigger_surely(level);
        self.run(10);
    }

    /// A channel, most often one that was handed a wave table.
    fn base_of_a_wave(&mut self) -> u16 {
        if self.waved.is_empty() || self.random.percent(20) {
            return self.base();
        }
        self.random.pick(&self.waved) << 12
    }

    /// A table of few samples for the level, some made to overflow; the number
    /// of its last sample.
    fn write_sine_ramp(&mut self, base: u16, level: u16) -> u16 {
        let table = self.tables[0];
        self.write(base + 0x800 + level, &[table]);
        if self.random.percent(5) {
            return self.write_all_points(base, table);
        }
        let entry = self.entries[1];
        let steps = [self.random.within(1, 3), self.random.within(1, 2)];
        let values = [self.value(), self.value(), self.value()];
        let (kind, chance) = (self.random.below(8), self.random.percent(50));
        let values = match kind {
            // The least amplitude, with factor one.
            0 => [0x8000, 0x8000, if chance { 0x8000 } else { values[2] }],
            // The same with factor two, and then sums out of range.
            1 => [0xC000, 0x8000, 0x8000],
            // Sample 0 out of range: the amplitude is an older one.
            2 | 3 => [0x7FFF, values[1], values[2]],
            _ => values,
        };
        let scale = if kind == 0 { 0 } else { entry };
        if kind < 4 {
            self.write(base + 0x840 + level, &[scale]);
            self.write(base + 0x880 + level, &[0]);
        }
        if matches!(kind, 1..=3) {
            self.write(base + 0x860 + entry, &[0x0200]);
        }
        let [one, two] = if kind == 7 { [0, 0] } else { steps };
        let words = [values[0], one, values[1], two, values[2], 0];
        self.write(base + 128 * table, &words);
        one + two
    }

    /// All points one sample apart: the ramp ends at point 63.
    fn write_all_points(&mut self, base: u16, table: u16) -> u16 {
        for half in 0..2 {
            let words: Vec<u16> = (0..32).flat_map(|_| [self.value(), 1]).collect();
            self.write(base + 128 * table + 64 * half, &words);
        }
        63
    }

    /// A trigger of the level, mostly by hand, which is always accepted.
    fn trigger_surely(&mut self, level: u16) {
        if self.random.percent(70) {
            self.write(0x4202, &[level]);
        } else {
            self.trigger_level(level);
        }
    }

    /// Does something on this tick after the trigger of a sine.
    fn meet_the_sine(&mut self, base: u16, tick: u16) {
        let second = self.levels[1];
        match self.random.below(10) {
            0..=2 => self.load_by_counting(base, second, tick),
            3 => {
                self.set_delay(base, second, 10);
                self.run(tick - 1);
                let event = self.events[1];
                self.event(event);
            }
            4 => {
                self.run(tick);
                self.write_output_of(base);
            }
            5 | 6 => {
                self.run(tick);
                let cleared = [(0xA00, 0), (0xA01, 0), (0xA01, 1), (0xA01, 4)];
                let (word, value) = self.random.pick(&cleared);
                self.write(base + word, &[value]);
                let ticks = self.random.pick(&[1, 10, 20, 25]);
                self.run(ticks);
            }
            7 => {
                self.run(tick);
                self.write(base + 0xA00, &[0]);
                self.trigger_surely(second);
            }
            8 => {
                self.run(tick);
                self.trigger_surely(second);
            }
            _ => {
                self.run(tick);
                self.try_to_hand_in(base >> 12);
            }
        }
    }

    /// Lets the load of a level fall on this tick or beside it, by a trigger
    /// before that; the channel is now and then disabled.
    fn load_by_counting(&mut self, base: u16, level: u16, tick: u16) {
        // The ramp has started by the trigger's tick, and the load comes after it.
        let tick = tick.max(11);
        let between = self.random.within(10, tick - 1);
        let load = self.random.pick(&[tick, tick, tick, tick + 1]) - between;
        self.set_delay(base, level, 10 + load);
        self.run(between);
        self.trigger_surely(level);
        if self.random.percent(25) {
            self.write(base + 0xA00, &[0]);
        }
        if self.random.percent(30) {
            self.write_output_of(base);
        }
        if self.random.percent(15) {
            self.try_to_hand_in(base >> 12);
        }
        self.run(load - 1);
        self.read(base + 0xA33, 1);
        self.run(1);
    }

    fn write_output_of(&mut self, base: u16) {
        let word = self.random.word();
        self.write(base + 0xA04, &[word]);
    }
}

/// Wave tables, which the bench program alone has a frame for.
impl Session {
    fn wave_line(&mut self, channel: u16, words: &[u16]) {
        let digits = digits(words);
        self.line(format!("10{channel:02X}{digits}").as_bytes());
    }

    /// A sound wave table, as long as the session has some left.
    fn hand_in(&mut self, channel: u16) {
        if self.program == Program::Bench && self.waves > 0 {
            self.waves -= 1;
            self.waved.push(channel);
            let words = self.wave_words();
            self.wave_line(channel, &words);
        }
    }

    fn wave_words(&mut self) -> Vec<u16> {
        let edge = self.random.pick(&[0x4000, 0xC000]);
        let kind = self.random.below(6);
        let mut word = |n: u16| match kind {
            0 => edge,
            1 => (u32::from(n) * u32::from(2048 - n) / 64) as u16,
            2 => 0_u16.wrapping_sub(16 * n),
            3 => self.random.below(0x8001).wrapping_sub(0x4000),
            _ => self.random.pick(&WAVE_EDGES),
        };
        (0..WAVE_WORDS as u16).map(&mut word).collect()
    }

    /// A wave table on a channel that may run, or the refusal by 9 before 8.
    fn try_to_hand_in(&mut self, channel: u16) {
        if self.program == Program::Bench {
            match self.random.below(3) {
                0 => self.wave_of_another_length(channel),
                _ => self.whole_wave_table(channel),
            }
        }
    }

    /// Wave tables at any moment, most of them refused.
    pub(super) fn wave_table(&mut self) {
        let channel = self.random.below(4);
        match self.random.below(8) {
            0..=3 => self.wave_of_another_length(channel),
            4 => self.hand_in(channel),
            _ => self.whole_wave_table(channel),
        }
    }

    /// Few words or one word beside the right number.
    fn wave_of_another_length(&mut self, channel: u16) {
        let few = self.random.within(1, 9);
        let length = if self.random.percent(5) {
            self.random.pick(&[1023, 1025, 2048, 4096, 4097])
        } else {
            self.random.pick(&[0, few])
        };
        let word = self.random.pick(&WAVE_EDGES);
        self.wave_line(channel, &vec![word; usize::from(length)]);
    }

    /// All 1,024 words, as long as the session has some left: sound, with a
    /// word out of range, or for a channel that is not there.
    fn whole_wave_table(&mut self, channel: u16) {
        if self.whole_waves == 0 {
            return self.wave_of_another_length(channel);
        }
        self.whole_waves -= 1;
        let mut words = self.wave_words();
        let other = self.random.within(4, 255);
        let other = self.random.pick(&[4, 4, 0x10, 0xFF, other]);
        let at = self.random.pick(&[0, 1, 511, 1022, 1023]);
        let bad = self.random.pick(&BAD_WORDS);
        match self.random.below(4) {
            0 => self.wave_line(other, &words),
            1 => {
                words[at] = bad;
                self.wave_line(channel, &words);
            }
            _ => self.wave_line(channel, &words),
        }
    }
}

#[cfg(test)]
mod tests {
    use super::super::tests::counts;
    use super::*;

    const SESSIONS: u64 = 200;

    /// Sines in half of the bench program's sessions, free runs in a quarter.
    #[test]
    fn sines_in_half_of_the_sessions() {
        let things = [
            "sessions with a sine output other than 0 and than its amplitude",
            "sessions with a free-run output other than 0",
            "sessions with a product that does not fit",
            "sessions with a sample of a plain ramp",
        ];
        let [sine, free, product, plain] = counts(Program::Bench, SESSIONS, things);
        assert!(2 * sine > SESSIONS, "{sine}");
        assert!(4 * free > SESSIONS, "{free}");
        assert!(40 * product > SESSIONS, "{product}");
        assert!(4 * plain > 3 * SESSIONS, "{plain}");
    }

    /// The line program's wave tables are zero: plain ramps come first.
    #[test]
    fn plain_ramps_in_most_sessions_of_the_line_program() {
        let things = [
            "sessions with a sample of a plain ramp",
            "sessions with a sample in sine mode",
            "sessions with a sample in free run",
        ];
        let [plain, sine, free] = counts(Program::Rampcard, SESSIONS, things);
        assert!(5 * plain > 4 * SESSIONS, "{plain}");
        assert!(3 * sine > SESSIONS, "{sine}");
        assert!(4 * free > SESSIONS, "{free}");
    }
}
