//! Transfers by slices that stop at a refused word, and those that go on from
//! there, in sessions of the bench program.

use std::collections::BTreeSet;

use super::{Session, SETTINGS};
use crate::line::MAX_WORDS;

/// Maps, with the number of values that each of them takes.
const MAPS: [(u16, u16); 5] = [
    (0x800, 16),
    (0x840, 32),
    (0x880, 32),
    (0x900, 32),
    (0x940, 32),
];

/// The last region of the map, as the settings are given.
const LEVEL_COUNTS: (u16, u16, u16) = (0x4220, 0x423F, 0xFFFF);

/// Going on.
impl Session {
    /// Right words with wrong ones in their places, in order. Each is refused,
    /// mended, and all behind it written on from there; then all are read.
    fn write_and_mend(&mut self, start: u16, right: &[u16], wrong: &[(u16, u16)]) {
        let mut words = right.to_vec();
        for &(at, word) in wrong {
            words[usize::from(at)] = word;
        }
        self.write_from_a_slice(start, &words);
        for &(at, _) in wrong {
            self.pause();
            let place = usize::from(at);
            words[place] = right[place];
            self.write_on(start + at, &words[place..]);
        }
        self.read_into_a_slice(start, right.len() as u16);
    }

    /// These words from the address that a refused write gave.
    fn write_on(&mut self, address: u16, words: &[u16]) {
        if words.len() <= MAX_WORDS && self.random.percent(25) {
            self.write(address, words);
        } else {
            self.write_from_a_slice(address, words);
        }
    }

    /// Now and then ticks or a read, but no write.
    fn pause(&mut self) {
        match self.random.below(10) {
            0 => self.some_ticks(),
            1 => self.read_status(),
            _ => {}
        }
    }

    /// One place or more below the length, in order, and a bad word for each.
    fn wrong_words(&mut self, length: usize, bad: &[u16]) -> Vec<(u16, u16)> {
        let some = self.random.pick(&[1, 1, 1, 2, 3]);
        let places: BTreeSet<u16> = (0..some)
            .map(|_| self.random.below(length as u16))
            .collect();
        let words = places.into_iter().map(|at| (at, self.random.pick(bad)));
        words.collect()
    }
}

/// Writes that are refused.
impl Session {
    /// A whole map with values in it that are not accepted, or with none.
    pub(super) fn mend_a_map(&mut self) {
        let base = self.base();
        let (map, entries) = self.random.pick(&MAPS);
        let right: Vec<u16> = (0..32).map(|_| self.random.below(entries)).collect();
        let mut wrong = self.wrong_words(right.len(), &[entries, 0x0100, 0x8000, 0xFFFF]);
        if self.random.percent(20) {
            wrong.clear();
        }
        self.write_and_mend(base + map, &right, &wrong);
    }

    /// The trigger map below or above a level that holds an event, with that
    /// event in it, and words that are no events.
    pub(super) fn mend_the_trigger_map(&mut self) {
        let (level, event) = (self.levels[0], self.events[0]);
        self.write(0x4201, &[1]);
        self.write(0x4000 + 8 * level, &[event]);
        let below = level == 31 || level > 0 && self.random.percent(50);
        let (first, last) = if below {
            (0, 8 * level - 1)
        } else {
            (8 * level + 8, 0xFF)
        };
        let any = self.random.within(first, last);
        let first = self.random.pick(&[first, any]);
        let right: Vec<u16> = (first..=last)
            .map(|slot| self.random.pick(&[0xFE, slot]))
            .map(|word| if word == event { 0xFE } else { word })
            .collect();
        let wrong = self.wrong_words(right.len(), &[event, event, event, 0x0100 | event]);
        self.write_and_mend(0x4000 + first, &right, &wrong);
        self.fill_slots_anew();
    }

    /// A write past the end of a region, and on from there with the rest.
    pub(super) fn write_on_behind_a_region(&mut self) {
        let setting = self.random.pick(&SETTINGS);
        let regions = [setting, setting, setting, setting, LEVEL_COUNTS];
        let (first, last, greatest) = self.random.pick(&regions);
        let base = if first < 0x4000 { self.base() } else { 0 };
        let room = self.random.pick(&[1, 2, 7, 32, 300]).min(last - first + 1);
        let start = base + last + 1 - room;
        let empty = first == 0x4000;
        let mut words: Vec<u16> = (0..room)
            .map(|_| self.random.within(0, greatest))
            .map(|word| if empty { 0xFE } else { word })
            .collect();
        let rest = self.random.pick(&[1, 2, 32, 40]);
        words.extend((0..rest).map(|_| self.random.below(2)));
        self.note_delays(start, &words);
        self.write_from_a_slice(start, &words);
        self.pause();
        let behind = &words[usize::from(room)..];
        self.write_on(start + room, behind);
        self.read_into_a_slice(start, room + 1);
    }

    /// A write from a fixed word on, and again from there or behind it.
    pub(super) fn write_long_to_a_fixed_word(&mut self) {
        let base = self.base();
        let inside = self.random.below(0x80);
        let start = self.random.pick(&[0x000, 0x07F, inside, 0x860, 0x8A0]);
        let count = self.random.pick(&[1, 32, 130]);
        let words: Vec<u16> = (0..count).map(|_| self.value()).collect();
        self.write_from_a_slice(base + start, &words);
        let taken = if start < 0x80 { 0x80 } else { start + 1 };
        let on = self.random.pick(&[start, taken]);
        let last = self.random.pick(&words);
        self.write_on(base + on, &[last]);
    }

    /// An output written while a ramp runs, and from there once it rests.
    pub(super) fn write_an_output_again(&mut self) {
        let (base, level) = (self.base(), self.level());
        let steps = self.random.within(1, 5);
        let words = [self.value(), steps, self.value(), 0];
        self.ready_ramp(base, level, &words);
        self.write(base + 0xA01, &[0]);
        self.write(0x4202, &[level]);
        let some = self.random.below(10 * steps);
        self.run(10 + some);
        let words = [self.random.word(), self.random.word()];
        let words = &words[..self.random.pick(&[1, 1, 2])];
        self.write_from_a_slice(base + 0xA04, words);
        let early = u16::from(self.random.percent(10));
        self.run(10 * steps - some - early);
        self.write_on(base + 0xA04, words);
        self.read_into_a_slice(base + 0xA04, 1);
    }
}

/// Reads, and transfers that do not begin.
impl Session {
    /// A read to the end of a region or past it, and on from there.
    pub(super) fn read_on_behind_a_region(&mut self) {
        let (start, room) = self.place();
        let past = self.random.pick(&[0, 1, 2, 40]);
        self.read_into_a_slice(start, room + past);
        let count = self.random.within(1, 4);
        self.read(start + room, count);
    }

    /// Transfers that mostly stop where they start: at the last address, behind
    /// the last region, at any word, where one access or the other lacks.
    pub(super) fn stop_at_the_start(&mut self) {
        let (base, any) = (self.base(), self.random.word());
        let starts = [0xFFFF, 0xFFFF, 0x4240, any, any, base + 0xA30, 0x4202];
        let start = self.random.pick(&starts);
        let count = self.random.pick(&[0, 1, 2, 2, 3, 16_381, 0xFFFF]);
        if self.random.percent(50) {
            return self.read_line(start, count, 2);
        }
        let slice = [self.random.below(2), self.random.below(2)];
        self.slice_line(start, count, &slice);
    }
}

#[cfg(test)]
mod tests {
    use super::super::tests::counts;
    use crate::program::Program;

    const SESSIONS: u64 = 200;

    /// Each thing comes once in so many sessions, or more often.
    const FLOORS: [(&str, u64); 26] = [
        ("frames 11 answered 1", 10),
        ("frames 11 answered 2", 10),
        ("frames 11 answered 3", 10),
        ("frames 11 answered 4", 4),
        ("frames 11 answered 5", 4),
        ("frames 11 answered 6", 4),
        ("frames 11 answered 7", 4),
        ("frames 11 answered 8", 4),
        ("frames 12 answered 1", 10),
        ("frames 12 answered 2", 40),
        ("frames 12 answered 3", 40),
        ("frames 12 answered 4", 4),
        ("frames 11 answered 4 with words done", 4),
        ("frames 11 answered 6 with words done", 4),
        ("frames 11 answered 7 with words done", 4),
        ("frames 11 answered 4 to 8 with more than 64 words done", 20),
        ("writes that go on from a frame 11 answered 4", 5),
        ("writes that go on from a frame 11 answered 5", 20),
        ("writes that go on from a frame 11 answered 6", 5),
        ("writes that go on from a frame 11 answered 7", 5),
        ("writes that go on from a frame 11 answered 8", 5),
        ("writes answered 0 that go on behind words done", 2),
        (
            "sessions with a write answered 0 that goes on behind words done",
            4,
        ),
        ("reads that go on from a frame 12 answered 4", 10),
        ("frames 11 and 12 with words done whose address is 4240", 20),
        ("frames 11 and 12 whose address is FFFF", 20),
    ];

    #[test]
    fn transfers_stop_everywhere_and_go_on() {
        let reached = counts(Program::Bench, SESSIONS, FLOORS.map(|(thing, _)| thing));
        for ((thing, sessions), count) in FLOORS.into_iter().zip(reached) {
            assert!(sessions * count > SESSIONS, "{count} {thing}");
        }
    }
}
