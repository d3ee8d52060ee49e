//! What sessions of the bench program have beside the line program's steps.

use super::{digits, Session, Step, EDGES, REGIONS, UNLISTED};
use crate::bench::{LONGEST, MAX_BUFFER, MAX_SLICE};
use crate::saved;

/// The longest slice of a frame.
const SLICE: u16 = MAX_SLICE as u16;

/// The kinds of steps a session of the bench program is made of.
pub(super) const STEPS: [Step; 29] = [
    (100, Session::line_step),
    (3, Session::write_tables),
    (3, Session::write_region),
    (2, Session::write_trigger_map),
    (4, Session::mend_a_map),
    (3, Session::mend_the_trigger_map),
    (4, Session::write_on_behind_a_region),
    (2, Session::write_long_to_a_fixed_word),
    (3, Session::write_an_output_again),
    (3, Session::read_on_behind_a_region),
    (3, Session::stop_at_the_start),
    (2, Session::count_beside_the_slice),
    (5, Session::read_long),
    (3, Session::reset_in_mid_ramp),
    (3, Session::wait_for_the_first_load),
    (5, Session::sine_moment),
    (3, Session::wave_table),
    (8, Session::save),
    (8, Session::check),
    (2, Session::check_a_bench),
    (3, Session::check_a_border),
    (6, Session::round_a_ramp),
    (2, Session::no_edition),
    (5, Session::plot_a_new_table),
    (6, Session::plot_anywhere),
    (8, Session::show_a_region),
    (4, Session::show_beside_a_region),
    (2, Session::bad_slice),
    (1, Session::line_at_the_limit),
];

/// Frames of the bench program.
impl Session {
    /// A step of the line program, its transfers often by slices.
    fn line_step(&mut self) {
        self.one_of(&super::STEPS);
    }

    /// The frame of a write of `count` from a slice.
    pub(super) fn slice_line(&mut self, start: u16, count: u16, slice: &[u16]) {
        let digits = digits(slice);
        self.line(format!("11{start:04X}{count:04X}{digits}").as_bytes());
    }

    /// All these words from a slice that is now and then longer.
    pub(super) fn write_from_a_slice(&mut self, start: u16, words: &[u16]) {
        let mut slice = words.to_vec();
        for _ in 0..self.random.pick(&[0, 0, 0, 1, 3]) {
            let word = self.random.below(2);
            slice.push(word);
        }
        self.slice_line(start, words.len() as u16, &slice);
    }

    /// A read into a slice of that length, filled with some word.
    pub(super) fn read_line(&mut self, start: u16, count: u16, length: u16) {
        let any = self.random.word();
        let fill = self.random.pick(&[0x0000, 0xFFFF, 0x55AA, any]);
        self.line(format!("12{start:04X}{count:04X}{length:04X}{fill:04X}").as_bytes());
    }

    /// A read into a slice that is often as long as the count.
    pub(super) fn read_into_a_slice(&mut self, start: u16, count: u16) {
        let more = self.random.pick(&[0, 0, 0, 1, 5]);
        self.read_line(start, count, count.saturating_add(more).min(SLICE));
    }

    fn plot(&mut self, channel: u16, table: u16, point: u16) {
        self.line(format!("1B{channel:02X}{table:02X}{point:02X}").as_bytes());
    }

    /// What the panel shows of some word.
    fn show(&mut self, address: u16) {
        let any = self.random.word();
        let edge = self.random.pick(&EDGES);
        let word = self.random.pick(&[any, edge]);
        self.line(format!("1C{address:04X}{word:04X}").as_bytes());
    }
}

/// Long transfers.
impl Session {
    /// Whole tables ready to run, some hundred words or up to the block's end,
    /// now and then beyond it.
    fn write_tables(&mut self) {
        let base = self.base();
        let tables = self.tables;
        let table = self.random.pick(&tables);
        let room = 0x800 - 128 * table;
        let count = match self.random.below(10) {
            0..=5 => 128,
            6 | 7 => room.min(256),
            8 => room,
            _ => room + self.random.pick(&[1, 2, 128, SLICE - room]),
        };
        let mut words = Vec::new();
        while words.len() < usize::from(count) {
            words.extend([self.value(), self.time_step()]);
        }
        words.truncate(usize::from(count));
        self.write_from_a_slice(base + 128 * table, &words);
    }

    /// Words at any place of the map: to its region's end, or past it.
    fn write_region(&mut self) {
        let (start, room) = self.place();
        let past = self.random.pick(&[0, 0, 1, 2, 300]);
        let count = room.min(300) + past;
        let mask = self.random.pick(&[0x0001, 0x000F, 0xFFFF]);
        let words: Vec<u16> = (0..count).map(|_| self.random.word() & mask).collect();
        self.note_delays(start, &words);
        self.write_from_a_slice(start, &words);
    }

    /// The trigger map from some level on, each event at one level, but often
    /// one of the session's own that another level may hold.
    fn write_trigger_map(&mut self) {
        let first = self.random.pick(&[0, 0, 8, 20, 31]);
        let mut words: Vec<u16> = Vec::new();
        for slot in 8 * first..256 {
            let own = self.random.percent(3);
            let event = self.random.pick(&[0xFE, 0xFE, 0xFE, slot]);
            let events = self.events;
            words.push(if own {
                self.random.pick(&events)
            } else {
                event
            });
        }
        self.write_from_a_slice(0x4000 + 8 * first, &words);
        self.fill_slots_anew();
    }

    /// Most often an empty trigger map with the session's events in it.
    pub(super) fn fill_slots_anew(&mut self) {
        if self.random.percent(75) {
            self.write(0x4201, &[1]);
            self.fill_slots();
        }
    }

    /// Counts of 0, above the slice's length and far above any.
    fn count_beside_the_slice(&mut self) {
        let (start, _) = self.place();
        let length = self.random.below(6);
        let any = self.random.word();
        let beside = [0, length + 1, 16_381, 16_382, 0xFFFF, any];
        let count = self.random.pick(&beside);
        if self.random.percent(50) {
            return self.read_line(start, count, length);
        }
        let slice: Vec<u16> = (0..length).map(|_| self.random.below(2)).collect();
        self.slice_line(start, count, &slice);
    }

    /// Reads at any place: to its region's end or past it, into slices as
    /// long as the count, longer, or one too short.
    fn read_long(&mut self) {
        let (place, room) = self.place();
        let tables = self.base();
        let (start, room) = self
            .random
            .pick(&[(place, room), (place, room), (tables, 0x800)]);
        let some = self.random.within(1, 200);
        let count = self
            .random
            .pick(&[room, room + 1, room + 40, some, some, 1]);
        let length = match self.random.below(12) {
            0..=5 => count,
            6..=8 => count + self.random.within(1, 20),
            9 | 10 => count - 1,
            _ => SLICE,
        };
        self.read_line(start, count, length);
    }

    /// Slices longer than a frame may lend: these are no frames.
    fn bad_slice(&mut self) {
        let (start, _) = self.place();
        let any = self.random.within(SLICE + 1, 0xFFFF);
        let length = self.random.pick(&[SLICE + 1, 0x8000, 0xFFFF, any]);
        self.read_line(start, 1, length);
    }
}

/// Saves.
impl Session {
    /// A save into a buffer as long as the lines, one byte off, or of another
    /// length; now and then none that a frame may lend.
    fn save(&mut self) {
        let lines = saved::length();
        let any = usize::from(self.random.word());
        let lengths = [
            0,
            1,
            lines - 1,
            lines - 1,
            lines,
            lines,
            lines + 1,
            MAX_BUFFER,
            any,
        ];
        let length = self.random.pick(&lengths);
        let line = match self.random.below(20) {
            0 => format!("15{:08X}", MAX_BUFFER + 1),
            1 => "15FFFFFFFF".to_string(),
            2 => format!("15{length:07X}"),
            3 => format!("15{length:09X}"),
            _ => format!("15{length:08X}"),
        };
        self.line(line.as_bytes());
    }
}

/// Resets, plotted points and panel readings.
impl Session {
    /// A ramp of some samples on one channel, often a second trigger, a reset
    /// or a fresh card on one of its ticks or near them, and looks at what is
    /// left.
    fn reset_in_mid_ramp(&mut self) {
        let base = self.base();
        let [first, second, _] = self.levels;
        let words = [self.value(), 3, self.value(), 2, self.value(), 0];
        self.ready_ramp(base, first, &words);
        self.trigger_level(first);
        let ticks = self.random.below(64);
        self.run(ticks);
        if self.random.percent(50) {
            self.delay_every_channel(second);
            self.trigger_level(second);
        }
        self.begin_anew();
        self.read(base + 128 * self.tables[0], 6);
        self.read_active();
        for _ in 0..self.random.within(1, 4) {
            self.read_status();
        }
        let ticks = self.random.pick(&[1, 10, 30, 60]);
        self.run(ticks);
        if self.random.percent(85) {
            self.set_up();
        }
    }

    /// A table written in one frame, and points at its end and beside it.
    fn plot_a_new_table(&mut self) {
        let base = self.base();
        let table = self.random.within(1, 15);
        let points = self.random.pick(&[1, 2, 3, 5, 9, 32, 64]);
        let long = self.random.percent(20);
        let mut words = Vec::new();
        for _ in 0..points {
            let step = if long {
                0xFFFF
            } else {
                self.time_step().max(1)
            };
            words.extend([self.value(), step]);
        }
        if self.random.percent(80) {
            words[2 * usize::from(points) - 1] = 0;
        }
        if points > 32 {
            self.write_from_a_slice(base + 128 * table, &words);
        } else {
            self.write(base + 128 * table, &words);
        }
        for _ in 0..self.random.within(1, 4) {
            let point = self
                .random
                .pick(&[0, points - 1, points - 1, points, points / 2]);
            self.plot(base >> 12, table, point);
        }
    }

    /// Points of any table, and of channels, tables and points not there.
    fn plot_anywhere(&mut self) {
        let tables = self.tables;
        let own = self.random.pick(&tables);
        let any = [self.random.below(16), self.random.below(256)];
        let table = self.random.pick(&[own, own, own, own, any[0], 16, any[1]]);
        let channel = self.random.below(4);
        let other = self.random.within(4, 255);
        let channel = self
            .random
            .pick(&[channel, channel, channel, channel, 4, other]);
        let few = self.random.below(9);
        let any = self.random.below(256);
        let point = self.random.pick(&[few, few, few, few, 62, 63, 64, any]);
        self.plot(channel, table, point);
    }

    fn show_a_region(&mut self) {
        let (address, _) = self.place();
        self.show(address);
    }

    /// The first and the last words of regions and those before and after,
    /// addresses of no region, and any address.
    fn show_beside_a_region(&mut self) {
        let (first, last) = self.random.pick(&REGIONS);
        let unlisted = self.random.pick(&UNLISTED);
        let near = [first, last, first.wrapping_sub(1), last + 1, unlisted];
        let near = self.random.pick(&near);
        let base = if near < 0x1000 { self.base() } else { 0 };
        let any = self.random.word();
        let address = self
            .random
            .pick(&[base + near, base + near, base + near, any]);
        self.show(address);
    }
}

/// Lines that are no frames, and the longest that is one.
impl Session {
    /// A frame of the bench program whose doing or answer would show.
    pub(super) fn sound_bench_line(&mut self) -> Vec<u8> {
        let level = self.level();
        let table = self.tables[0];
        let lines = [
            "18".to_string(),
            format!("1142020001{level:04X}"),
            format!("114202000100{level:02X}0001"),
            "110A040001ABCD".to_string(),
            "1208600002000355AA".to_string(),
            "120A3100010001AAAA".to_string(),
            "1000".to_string(),
            "1003400040004000".to_string(),
            "15000094BF".to_string(),
            "16".to_string(),
            "1701".to_string(),
            "1702".to_string(),
            format!("1B00{table:02X}00"),
            "1C0A04FFFF".to_string(),
        ];
        let index = self.random.below(lines.len() as u16);
        lines[usize::from(index)].clone().into_bytes()
    }

    /// A first byte that names no frame, on a form that could be one.
    pub(super) fn unknown_bench_frame(&mut self) {
        let lines = [
            "10",
            "100",
            "100000",
            "100000010",
            "13",
            "13000A",
            "1400000001",
            "1500010001",
            "1600",
            "1900",
            "1A00",
            "1D",
            "1E0000",
            "1F",
            "80",
            "90",
            "91000001",
            "98",
            "9B00",
            "9C0500000001",
            "1800",
            "20",
            "21",
            "28",
        ];
        let line = self.random.pick(&lines);
        self.line(line.as_bytes());
    }

    /// The longest frame, its count small or whole, as it is, one digit too
    /// long, with a word too many, or far beyond; or that many other digits.
    fn line_at_the_limit(&mut self) {
        let base = self.base();
        let table = self.tables[0];
        let count = self.random.pick(&[1, 3, 0x0080, SLICE, SLICE + 1]);
        let kind = self.random.pick(&["11", "11", "11", "11", "01", "03"]);
        let start = base + 128 * table;
        let mut line = format!("{kind}{start:04X}{count:04X}").into_bytes();
        let word = format!("{:04X}", self.value());
        let length = match self.random.below(10) {
            0..=4 => LONGEST,
            5..=7 => LONGEST + 1,
            8 => LONGEST + 4,
            _ => LONGEST + usize::from(self.random.within(2, 50_000)),
        };
        let more = length - line.len();
        line.extend(word.bytes().cycle().take(more));
        self.line(&line);
    }
}
