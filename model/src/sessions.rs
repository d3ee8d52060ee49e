//! Random sessions for both programs, the same ones for the same seed.

mod bench;
mod edition;
mod profile;
mod sine;
mod stops;

use std::fs;
use std::io;
use std::path::Path;

use crate::program::Program;
use crate::random::Random;

/// Every region of the map of words, channel 0 standing for all channels.
const REGIONS: [(u16, u16); 28] = [
    (0x0000, 0x07FF),
    (0x0800, 0x081F),
    (0x0840, 0x085F),
    (0x0860, 0x087F),
    (0x0880, 0x089F),
    (0x08A0, 0x08BF),
    (0x08E0, 0x08FF),
    (0x0900, 0x091F),
    (0x0920, 0x093F),
    (0x0940, 0x095F),
    (0x0960, 0x097F),
    (0x0A00, 0x0A00),
    (0x0A01, 0x0A01),
    (0x0A04, 0x0A04),
    (0x0A30, 0x0A30),
    (0x0A31, 0x0A31),
    (0x0A32, 0x0A32),
    (0x0A33, 0x0A33),
    (0x0A34, 0x0A34),
    (0x0A39, 0x0A39),
    (0x4000, 0x40FF),
    (0x4100, 0x41FF),
    (0x4200, 0x4200),
    (0x4201, 0x4201),
    (0x4202, 0x4202),
    (0x4210, 0x4210),
    (0x4211, 0x4211),
    (0x4220, 0x423F),
];

/// The regions of settings from their first word that is not fixed, each with
/// a value that all words up to it are accepted with.
const SETTINGS: [(u16, u16, u16); 15] = [
    (0x0080, 0x07FF, 0xFFFF),
    (0x0800, 0x081F, 15),
    (0x0840, 0x085F, 31),
    (0x0861, 0x087F, 0xFFFF),
    (0x0880, 0x089F, 31),
    (0x08A1, 0x08BF, 0xFFFF),
    (0x08E0, 0x08FF, 70),
    (0x0900, 0x091F, 31),
    (0x0920, 0x093F, 0xFFFF),
    (0x0940, 0x095F, 31),
    (0x0960, 0x097F, 0xFFFF),
    (0x0A00, 0x0A00, 1),
    (0x0A01, 0x0A01, 1),
    (0x4000, 0x40FF, 0xFF),
    (0x4200, 0x4200, 1),
];

/// Addresses around the regions that belong to none.
const UNLISTED: [u16; 20] = [
    0x0820, 0x083F, 0x08C0, 0x08DF, 0x0980, 0x09FF, 0x0A02, 0x0A03, 0x0A05, 0x0A2F, 0x0A35, 0x0A38,
    0x0A3A, 0x0FFF, 0x4203, 0x4212, 0x421F, 0x4240, 0x4400, 0xFFFF,
];

/// Values around the edges of a signed and of an unsigned word.
const EDGES: [u16; 10] = [
    0x0000, 0x0001, 0x7FFF, 0x8000, 0x8001, 0xFFFF, 0x3FFF, 0x4000, 0xC000, 0x00FF,
];

/// The ticks a session usually stays below.
const TICKS: u32 = 150_000;

/// Writes the sessions DIR/00000.txt, DIR/00001.txt, ... of the seed.
pub fn write_all(program: Program, seed: u64, count: u64, directory: &Path) -> io::Result<()> {
    fs::create_dir_all(directory)?;
    for index in 0..count {
        let name = format!("{index:05}.txt");
        fs::write(directory.join(name), session(program, seed, index))?;
    }
    Ok(())
}

/// One session; it depends on the program, the seed and its index alone.
fn session(program: Program, seed: u64, index: u64) -> Vec<u8> {
    let mut session = Session::new(program, Random::of(seed, index));
    if program == Program::Bench {
        session.begin_on_an_edition(index);
    }
    let lines = session.length();
    if lines > 5 && session.random.percent(90) {
        session.set_up();
    } else if session.random.percent(80) {
        session.write_settings();
    }
    let lines = session.lines + lines;
    while session.lines < lines {
        session.step();
    }
    if session.random.percent(25) {
        // The last line may lack its LF.
        session.text.pop();
    }
    session.text
}

/// A kind of step, with its weight.
type Step = (u16, fn(&mut Session));

/// The kinds of steps a session of the line program is made of.
const STEPS: [Step; 31] = [
    (26, Session::some_ticks),
    (8, Session::trigger),
    (12, Session::awkward_moment),
    (4, Session::meet_a_sample),
    (4, Session::wait_for_the_first_load),
    (2, Session::sine_moment),
    (12, Session::change_setting),
    (2, Session::write_settings),
    (3, Session::change_sine),
    (2, Session::read_sine),
    (1, Session::write_bad_sine),
    (5, Session::write_output),
    (3, Session::clear_count),
    (14, Session::read_status),
    (6, Session::read_anywhere),
    (2, Session::read_image),
    (2, Session::run_past_end),
    (2, Session::write_fixed),
    (2, Session::write_bad_value),
    (2, Session::write_held_event),
    (2, Session::unlisted_address),
    (2, Session::lacking_access),
    (1, Session::count_nothing),
    (5, Session::damaged_line),
    (1, Session::erase),
    (2, Session::switch_clock),
    (2, Session::switch_channel),
    (2, Session::other_event),
    (2, Session::write_anywhere),
    (1, Session::fill_slots),
    (1, Session::rare_run),
];

/// A session being written. It stays with a few levels, tables, entries and
/// events, so that what it writes meets what it triggers.
struct Session {
    program: Program,
    random: Random,
    text: Vec<u8>,
    lines: usize,
    ticks: u32,
    budget: u32,
    levels: [u16; 3],
    tables: [u16; 3],
    entries: [u16; 3],
    events: [u16; 3],
    /// The delays as written, by channel and level.
    delays: [[u16; 32]; 4],
    /// The edition of its card.
    edition: u16,
    /// Whether its channels begin in sine mode.
    sine: bool,
    /// The wave tables it has left to hand in, and those to try or to spoil.
    waves: u16,
    whole_waves: u16,
    /// The channels that were handed one.
    waved: Vec<u16>,
}

impl Session {
    fn new(program: Program, mut random: Random) -> Self {
        let first = random.below(0xF0);
        let apart = random.within(1, 10);
        let level = random.below(32);
        let budget = if random.percent(3) { 3 * TICKS } else { TICKS };
        let bench = program == Program::Bench;
        Session {
            sine: random.percent(if bench { 70 } else { 30 }),
            waves: random.pick(&[1, 2, 2, 3]),
            whole_waves: random.pick(&[0, 1, 1, 2]),
            waved: Vec::new(),
            levels: [level, (level + apart) % 32, (level + 2 * apart) % 32],
            tables: std::array::from_fn(|_| random.within(1, 15)),
            entries: [0, random.within(1, 31), random.within(1, 31)],
            events: [first, first + 1, first + 3],
            delays: [[0; 32]; 4],
            edition: 1,
            text: Vec::new(),
            lines: 0,
            ticks: 0,
            budget,
            program,
            random,
        }
    }

    /// The lines after the set-up: some few, most dozens, a few a thousand.
    fn length(&mut self) -> usize {
        let lines = match self.random.below(100) {
            0..=9 => self.random.below(6),
            10..=12 => self.random.within(700, 1000),
            _ => self.random.within(28, 205),
        };
        usize::from(lines)
    }

    fn step(&mut self) {
        match self.program {
            Program::Rampcard => self.one_of(&STEPS),
            Program::Bench => self.one_of(&bench::STEPS),
        }
    }

    /// One of the steps, by their weights.
    fn one_of(&mut self, steps: &[Step]) {
        let total = steps.iter().map(|&(weight, _)| weight).sum();
        let mut roll = self.random.below(total);
        for &(weight, step) in steps {
            if roll < weight {
                return step(self);
            }
            roll -= weight;
        }
    }

    /// True so many times in a hundred for the bench program, else never.
    fn bench_percent(&mut self, chance: u16) -> bool {
        self.program == Program::Bench && self.random.percent(chance)
    }

    fn line(&mut self, bytes: &[u8]) {
        self.text.extend_from_slice(bytes);
        self.text.push(b'\n');
        self.lines += 1;
    }

    fn write(&mut self, start: u16, words: &[u16]) {
        if self.bench_percent(40) {
            return self.write_from_a_slice(start, words);
        }
        let digits = digits(words);
        self.line(format!("01{start:04X}{digits}").as_bytes());
    }

    fn read(&mut self, start: u16, count: u16) {
        if self.bench_percent(40) {
            return self.read_into_a_slice(start, count);
        }
        self.line(format!("02{start:04X}{count:04X}").as_bytes());
    }

    /// Ticks, few where many would exceed the session's own.
    fn run(&mut self, ticks: u16) {
        let ticks = if self.ticks + u32::from(ticks) > self.budget {
            ticks % 32
        } else {
            ticks
        };
        self.ticks += u32::from(ticks);
        self.line(format!("03{ticks:04X}").as_bytes());
    }

    fn event(&mut self, event: u16) {
        self.ticks += 1;
        self.line(format!("04{event:02X}").as_bytes());
    }

    fn base(&mut self) -> u16 {
        self.random.below(4) << 12
    }

    fn level(&mut self) -> u16 {
        let levels = self.levels;
        self.random.pick(&levels)
    }

    /// A start inside a region, often near its end, and the words to its end.
    fn place(&mut self) -> (u16, u16) {
        let (first, last) = self.random.pick(&REGIONS);
        let start = if self.random.percent(40) {
            last - self.random.below(6).min(last - first)
        } else {
            self.random.within(first, last)
        };
        let base = if first < 0x4000 { self.base() } else { 0 };
        (base + start, last - start + 1)
    }
}

/// Words of four digits each.
fn digits(words: &[u16]) -> String {
    words.iter().map(|word| format!("{word:04X}")).collect()
}

/// Settings.
impl Session {
    /// What most sessions begin with: ramps ready to run.
    fn set_up(&mut self) {
        let sure = self.random.below(4);
        for channel in 0..4 {
            if channel == sure || self.random.percent(65) {
                self.set_up_channel(channel << 12);
            }
        }
        if self.random.percent(30) {
            let level = self.level();
            self.delay_every_channel(level);
        }
        self.fill_slots();
        self.write(0x4200, &[1]);
    }

    fn set_up_channel(&mut self, base: u16) {
        let some = self.random.pick(&[1, 2, 2, 3, 3]);
        for index in 0..some {
            let (level, table) = (self.levels[index], self.tables[index]);
            self.write_table(base, table);
            self.write(base + 0x800 + level, &[table]);
            self.write_delay(base, level);
            if self.random.percent(60) {
                self.write_map(base + 0x840, level);
            }
            if self.random.percent(60) {
                self.write_map(base + 0x880, level);
            }
        }
        for index in 1..3 {
            let entry = self.entries[index];
            let (scale, offset) = (self.scale(), self.offset());
            self.write(base + 0x860 + entry, &[scale]);
            self.write(base + 0x8A0 + entry, &[offset]);
        }
        if self.sine && self.random.percent(60) {
            self.set_up_sine(base);
        }
        let enable = u16::from(self.random.percent(90));
        self.write(base + 0xA00, &[enable]);
    }

    /// One slot at least for each of the session's events.
    fn fill_slots(&mut self) {
        for (level, event) in self.levels.into_iter().zip(self.events) {
            let slot = self.random.below(7);
            let words = [event, if self.random.percent(30) { event } else { 0xFE }];
            let count = self.random.within(1, 2);
            self.write(0x4000 + 8 * level + slot, &words[..usize::from(count)]);
        }
    }

    /// A map entry for the level, of scale factor, offset, frequency or phase.
    fn write_map(&mut self, map: u16, level: u16) {
        let [fixed, one, two] = self.entries;
        let entry = self.random.pick(&[fixed, one, one, two, two]);
        self.write(map + level, &[entry]);
    }

    fn write_delay(&mut self, base: u16, level: u16) {
        let delay = match self.random.below(20) {
            0..=15 => {
                let usual = [0, 5, 9, 10, 10, 11, 11, 12, 12, 13, 20, 20, 21, 30, 35, 41];
                self.random.pick(&usual)
            }
            16 => self.random.within(14, 99),
            17 | 18 => self.random.within(100, 999),
            _ => self.random.pick(&[65535, 65535, 1000, 5000, 65534]),
        };
        self.set_delay(base, level, delay);
    }

    fn set_delay(&mut self, base: u16, level: u16, delay: u16) {
        self.delays[usize::from(base >> 12)][usize::from(level)] = delay;
        self.write(base + 0x8E0 + level, &[delay]);
    }

    /// Lets every load of the level come late; the tick of the first one.
    fn delay_every_channel(&mut self, level: u16) -> u16 {
        let latest = if self.random.percent(10) { 9999 } else { 70 };
        let mut first = u16::MAX;
        for channel in 0..4 {
            let mut delay = self.delays[usize::from(channel)][usize::from(level)];
            if delay < 22 {
                delay = self.random.within(22, latest);
                self.set_delay(channel << 12, level, delay);
            }
            first = first.min(delay);
        }
        first - 10
    }

    fn scale(&mut self) -> u16 {
        match self.random.below(10) {
            0..=5 => {
                let usual = [
                    0x0100, 0x0080, 0xFF00, 0xFF80, 0x0200, 0xFE00, 0x0140, 0x0001,
                ];
                self.random.pick(&usual)
            }
            6 | 7 => self.random.pick(&EDGES),
            8 => self.random.within(0x0010, 0x0400),
            _ => self.random.word(),
        }
    }

    fn offset(&mut self) -> u16 {
        match self.random.below(10) {
            0..=3 => self
                .random
                .pick(&[0, 1, 2, 10, 0xFFFF, 0xFFFE, 0xFFF6, 500]),
            4..=7 => self.random.pick(&EDGES),
            _ => self.random.word(),
        }
    }

    /// A V word.
    fn value(&mut self) -> u16 {
        match self.random.below(10) {
            0..=2 => self.random.below(500),
            3..=4 => 0_u16.wrapping_sub(self.random.below(500)),
            5..=6 => self.random.pick(&EDGES),
            _ => self.random.word(),
        }
    }

    /// A time step word, now and then the 0 that ends a ramp.
    fn time_step(&mut self) -> u16 {
        match self.random.below(100) {
            0..=54 => 1,
            55..=74 => 2,
            75..=89 => self.random.within(3, 7),
            90..=92 => 0,
            93..=96 => self.random.within(8, 300),
            _ => self.random.pick(&[1000, 0x7FFF, 0x8000, 65535]),
        }
    }

    /// A table, short or long, with or without its end mark.
    fn write_table(&mut self, base: u16, table: u16) {
        let points = match self.random.below(20) {
            0..=1 => 1,
            2..=11 => self.random.within(2, 6),
            12..=16 => self.random.within(7, 32),
            _ => return self.write_full_table(base, table),
        };
        let mut words: Vec<u16> = Vec::new();
        for _ in 0..points {
            words.extend([self.value(), self.time_step()]);
        }
        if self.random.percent(85) {
            words[2 * usize::from(points) - 1] = 0;
        }
        self.write(base + 128 * table, &words);
    }

    /// All 64 points with small steps: the ramp ends at point 63.
    fn write_full_table(&mut self, base: u16, table: u16) {
        for half in 0..2 {
            let mut words: Vec<u16> = Vec::new();
            for _ in 0..32 {
                let step = self.random.pick(&[1, 1, 1, 1, 2]);
                words.extend([self.value(), step]);
            }
            self.write(base + 128 * table + 64 * half, &words);
        }
        if self.random.percent(50) {
            let step = self.time_step();
            self.write(base + 128 * table + 127, &[step]);
        }
    }

    /// A ramp of these words, ready to run at the level 10 ticks after its
    /// trigger.
    fn ready_ramp(&mut self, base: u16, level: u16, words: &[u16]) {
        let table = self.tables[0];
        self.write(base + 128 * table, words);
        self.write(base + 0x800 + level, &[table]);
        self.set_delay(base, level, 10);
        self.write(base + 0xA00, &[1]);
    }

    /// Marta's writes, at any moment.
    fn change_setting(&mut self) {
        let base = self.base();
        let level = self.level();
        let (tables, entries) = (self.tables, self.entries);
        let table = self.random.pick(&tables);
        let entry = self.random.pick(&entries[1..]);
        match self.random.below(9) {
            0 | 1 => self.write_table(base, table),
            2 => {
                let (value, step) = (self.value(), self.time_step());
                let point = self.random.below(8);
                self.write(base + 128 * table + 2 * point, &[value, step]);
            }
            3 => {
                let mapped = self.random.pick(&[0, table, table, 15]);
                self.write(base + 0x800 + level, &[mapped]);
            }
            4 => {
                let map = self.random.pick(&[0x840, 0x880]);
                self.write_map(base + map, level);
            }
            5 => {
                let scale = self.scale();
                self.write(base + 0x860 + entry, &[scale]);
            }
            6 => {
                let offset = self.offset();
                self.write(base + 0x8A0 + entry, &[offset]);
            }
            _ => self.write_delay(base, level),
        }
    }

    /// Up to 64 settings in one frame: from the first word of a region on, up to
    /// its last, or between.
    fn write_settings(&mut self) {
        let (first, last, greatest) = self.random.pick(&SETTINGS);
        let base = if first < 0x4000 { self.base() } else { 0 };
        let room = last - first + 1;
        let count = self.random.pick(&[64, 64, 32, 1, 5]).min(room);
        let between = self.random.within(first, last + 1 - count);
        let start = self.random.pick(&[first, last + 1 - count, between]);
        let words: Vec<u16> = (start..start + count)
            .map(|address| match address {
                // Each event at one slot.
                0x4000..=0x40FF => self.random.pick(&[0xFE, address & 0xFF]),
                _ => self.random.within(0, greatest),
            })
            .collect();
        self.note_delays(base + start, &words);
        self.write(base + start, &words);
    }

    fn switch_clock(&mut self) {
        let on = u16::from(self.random.percent(75));
        self.write(0x4200, &[on]);
    }

    fn switch_channel(&mut self) {
        let base = self.base();
        let on = u16::from(self.random.percent(70));
        self.write(base + 0xA00, &[on]);
    }

    fn erase(&mut self) {
        let one = self.random.pick(&[1, 1, 1, 0, 2]);
        self.write(0x4201, &[one]);
        if self.random.percent(75) {
            self.fill_slots();
        }
    }

    fn write_output(&mut self) {
        let base = self.base();
        let words = [self.random.word(), self.random.word()];
        let count = if self.random.percent(85) { 1 } else { 2 };
        self.write(base + 0xA04, &words[..count]);
    }

    fn clear_count(&mut self) {
        let word = self.random.word();
        if self.random.percent(40) {
            let base = self.base();
            return self.write(base + 0xA39, &[word]);
        }
        let level = self.level();
        let count = self.random.within(1, 4);
        let words = vec![word; usize::from(count)];
        self.write(0x4220 + level, &words);
    }
}

/// Ticks and triggers.
impl Session {
    fn some_ticks(&mut self) {
        let ticks = match self.random.below(40) {
            0 => 0,
            1..=4 => 1,
            5..=9 => self.random.within(2, 8),
            10..=13 => 9,
            14..=21 => 10,
            22..=25 => 11,
            26..=31 => self.random.within(12, 99),
            32..=36 => self.random.within(100, 999),
            37 | 38 => self.random.within(1000, 9999),
            _ if self.random.percent(25) => self.random.within(10_000, 65_535),
            _ => 20,
        };
        self.run(ticks);
    }

    fn trigger(&mut self) {
        let level = self.level();
        self.trigger_level(level);
    }

    /// A trigger of the level, by hand or by its event.
    fn trigger_level(&mut self, level: u16) {
        match self.event_of(level) {
            Some(event) if self.random.percent(60) => self.event(event),
            _ => self.write(0x4202, &[level]),
        }
    }

    fn event_of(&self, level: u16) -> Option<u16> {
        let index = self.levels.iter().position(|&held| held == level)?;
        Some(self.events[index])
    }

    /// Null events, events not held, and any event.
    fn other_event(&mut self) {
        let next = self.events[1] + 1;
        let any = self.random.below(0x100);
        let event = self.random.pick(&[0xFE, 0xFE, 0xFF, next, any]);
        self.event(event);
    }

    /// Triggers a level, goes to a tick next to a load, a start or a sample
    /// of one channel, and does something there; often a retrigger.
    fn awkward_moment(&mut self) {
        let level = self.level();
        let channel = usize::from(self.random.below(4));
        self.trigger_level(level);
        let delay = self.delays[channel][usize::from(level)].max(10);
        let nearby = match self.random.below(8) {
            0..=2 => delay - 10,
            3 => delay - self.random.within(1, 9),
            4 => delay,
            _ => delay.saturating_add(10 * self.random.within(1, 8)),
        };
        let tick = match self.random.below(4) {
            0 => nearby.saturating_sub(1),
            1 => nearby.saturating_add(1),
            _ => nearby,
        };
        let again = self.level();
        match self.event_of(again) {
            // The event comes on that very tick, after the channels.
            Some(event) if tick > 0 && self.random.percent(50) => {
                self.run(tick - 1);
                self.event(event);
            }
            _ => {
                self.run(tick);
                self.act_at_the_moment(again);
            }
        }
        self.look_around((channel as u16) << 12);
    }

    /// Lets the load of a second trigger fall on a sample of the first ramp,
    /// often its last, or one tick beside it.
    fn meet_a_sample(&mut self) {
        let base = self.base();
        let [first, second, _] = self.levels;
        let steps = self.random.within(1, 4);
        let words = [self.value(), steps, self.value(), 0];
        self.ready_ramp(base, first, &words);
        // Counted from the first trigger: sample k comes on tick 10 + 10k.
        let sample = 10 + 10 * self.random.within(1, steps).max(steps - 1);
        let between = self.random.within(10, sample - 1);
        let beside = self.random.pick(&[0, 0, 0, 1, 2]);
        self.set_delay(base, second, sample + 9 + beside - between);
        self.trigger_level(first);
        self.run(between);
        self.write(0x4202, &[second]);
        self.run(sample - between - 1);
        self.look_around(base);
    }

    /// Triggers a level whose loads all come late, does something on a tick
    /// before, of or after the first load, and looks at the level shown.
    fn wait_for_the_first_load(&mut self) {
        let level = self.level();
        let load = self.delay_every_channel(level);
        self.trigger_level(level);
        let erased = self.random.percent(30);
        if erased {
            self.write(0x4201, &[1]);
        }
        let early = self.random.within(1, load);
        let tick = self.random.pick(&[early, load, load, load + 1]);
        self.run(tick - 1);
        self.read_active();
        let other = self.level();
        if self.random.percent(60) {
            self.trigger_level(other);
        } else {
            self.act_at_the_moment(other);
        }
        self.read_active();
        let ticks = self.random.pick(&[1, 9, 10, 20, load]);
        self.run(ticks);
        self.read_active();
        if erased {
            self.fill_slots();
        }
    }

    fn act_at_the_moment(&mut self, level: u16) {
        match self.random.below(5) {
            0 | 1 => self.trigger_level(level),
            2 => self.write_output(),
            3 => self.change_setting(),
            _ => self.switch_channel(),
        }
    }

    /// Reads some words of a channel, then ticks on and looks again.
    fn look_around(&mut self, base: u16) {
        for _ in 0..self.random.below(3) {
            let status = base + 0xA30 + self.random.below(5);
            let words = [status, status, status, base + 0xA39, 0x4210, 0x4211];
            let word = self.random.pick(&words);
            self.read(word, 1);
        }
        let ticks = self.random.pick(&[1, 1, 9, 10, 10, 11, 19, 20, 50]);
        self.run(ticks);
        self.read(base + 0xA33, 1);
        self.read(base + 0xA34, 1);
    }

    /// Once in a long while, a run long enough for a counter to go round.
    fn rare_run(&mut self) {
        match self.random.below(100) {
            0 => self.overflow_all_the_way(),
            1 => self.trigger_all_the_way(),
            _ => self.some_ticks(),
        }
    }

    /// More than 65,536 overflows on one channel: 655,350 ticks and more.
    fn overflow_all_the_way(&mut self) {
        let (base, level) = (self.base(), self.level());
        self.write(base + 0x800 + level, &[1]);
        let words = [0x7FFF, 65535, 0x7FFF, 65535, 0x7FFF, 0];
        self.write(base + 0x080, &words);
        self.write(base + 0x840 + level, &[1]);
        self.write(base + 0x861, &[0x7FFF]);
        self.write(base + 0xA00, &[1]);
        self.write(0x4202, &[level]);
        for _ in 0..11 {
            self.line(b"03FFFF");
        }
        self.read(base + 0xA39, 1);
        self.read(base + 0xA33, 1);
        self.read(base + 0xA34, 1);
    }

    /// More than 65,536 triggers of one level.
    fn trigger_all_the_way(&mut self) {
        let level = self.level();
        for _ in 0..65_540_u32 {
            self.text
                .extend_from_slice(format!("014202{level:04X}\n").as_bytes());
        }
        self.read(0x4220 + level, 1);
    }
}

/// Reads, and transfers that are refused.
impl Session {
    fn read_status(&mut self) {
        let base = self.base();
        let level = self.level();
        let words = [
            base + 0xA30,
            base + 0xA31,
            base + 0xA32,
            base + 0xA33,
            base + 0xA33,
            base + 0xA34,
            base + 0xA34,
            base + 0xA39,
            base + 0xA39,
            base + 0xA04,
            base + 0xA00,
            base + 0xA01,
            0x4200,
            0x4210,
            0x4211,
            0x4220 + level,
        ];
        let start = self.random.pick(&words);
        let count = if self.random.percent(90) { 1 } else { 2 };
        self.read(start, count);
    }

    /// The active level, its event and the count of some level.
    fn read_active(&mut self) {
        let count = 0x4220 + self.level();
        for (word, chance) in [(0x4210, 70), (0x4211, 70), (count, 30)] {
            if self.random.percent(chance) {
                self.read(word, 1);
            }
        }
    }

    fn read_anywhere(&mut self) {
        let (start, words) = self.place();
        let count = match self.random.below(6) {
            0 => words.min(64),
            1 => (words + 1).min(64),
            2 => 64,
            3 => 1,
            _ => self.random.below(65),
        };
        self.read(start, count);
    }

    /// The event image around the session's events, and all of a level.
    fn read_image(&mut self) {
        let first = self.events[0];
        let level = self.level();
        match self.random.below(4) {
            0 => self.read(0x4000 + 8 * level, 8),
            1 => self.read(0x41F0, 16),
            _ => self.read(0x4100 + first, 4),
        }
    }

    /// A write that starts in a region and goes on past its last word.
    fn run_past_end(&mut self) {
        let (first, last) = self.random.pick(&REGIONS);
        let base = if first < 0x4000 { self.base() } else { 0 };
        let start = last - self.random.below(5).min(last - first);
        let count = last - start + 1 + self.random.within(1, 5);
        let words: Vec<u16> = (0..count).map(|_| self.random.below(2)).collect();
        self.write(base + start, &words);
    }

    fn write_fixed(&mut self) {
        let base = self.base();
        let inside = self.random.below(0x80);
        let fixed = [0x000, 0x07F, 0x07E, 0x860, 0x8A0, inside];
        let start = self.random.pick(&fixed);
        let words = [self.random.word(), self.random.word()];
        let count = usize::from(self.random.within(1, 2));
        self.write(base + start, &words[..count]);
    }

    /// Accepted words, then one that is not, then one more.
    fn write_bad_value(&mut self) {
        let base = self.base();
        let level = self.level();
        let bounded = [
            (base + 0x800 + level, 15),
            (base + 0x840 + level, 31),
            (base + 0x880 + level, 31),
            (base + 0xA00, 1),
            (0x4000 + 8 * level, 0xFF),
            (0x4200, 1),
            (0x4201, 1),
            (0x4202, 31),
        ];
        let (start, greatest) = self.random.pick(&bounded);
        let high = greatest | self.random.pick(&[0x0100, 0x0400, 0x8000]);
        let any = self.random.word() | 0x0100;
        let bad = self.random.pick(&[greatest + 1, high, 0xFFFF, any]);
        let good = self.random.below(greatest + 1);
        let words = [good, bad, good];
        let first = usize::from(self.random.percent(60));
        self.write(start, &words[first..]);
    }

    /// An event of one of the session's levels, written to another level.
    fn write_held_event(&mut self) {
        let events = self.events;
        let event = self.random.pick(&events);
        let free = self.random.pick(&[0xFE, 0xFE, 0xFD]);
        let any = self.random.below(32);
        let level = self.level();
        let level = self.random.pick(&[level, level, any]);
        let slot = self.random.below(8);
        let words = [free, event, free];
        let first = usize::from(self.random.percent(50));
        self.write(0x4000 + 8 * level + slot, &words[first..]);
    }

    fn unlisted_address(&mut self) {
        let base = self.base();
        let near = self.random.pick(&UNLISTED);
        let near = if near < 0x1000 { base + near } else { near };
        let any = self.random.word();
        let start = self.random.pick(&[near, near, any]);
        let count = self.random.within(1, 3);
        if self.random.percent(50) {
            self.read(start, count);
        } else {
            self.write(start, &[1, 0, 1][..usize::from(count)]);
        }
    }

    /// Writes to what may be read only, reads of what may be written only.
    fn lacking_access(&mut self) {
        if self.random.percent(30) {
            let start = self.random.pick(&[0x4201, 0x4202]);
            let count = self.random.within(1, 2);
            return self.read(start, count);
        }
        let base = self.base();
        let status = base + 0xA30 + self.random.below(5);
        let image = 0x4100 + self.random.below(0x100);
        let start = self.random.pick(&[status, status, image, 0x4210, 0x4211]);
        let word = self.random.word();
        self.write(start, &[word]);
    }

    fn count_nothing(&mut self) {
        let (place, _) = self.place();
        let any = self.random.word();
        let start = self.random.pick(&[place, any]);
        if self.random.percent(50) {
            self.read(start, 0);
        } else {
            self.write(start, &[]);
        }
    }

    /// Any words at any place of the map, up to 64 of them.
    fn write_anywhere(&mut self) {
        let (start, _) = self.place();
        let count = self.random.pick(&[1, 2, 3, 8, 33, 64]);
        let small = self.random.percent(60);
        let mut words: Vec<u16> = Vec::new();
        for _ in 0..count {
            let bits = if small { 0x000F } else { 0xFFFF };
            words.push(self.random.word() & bits);
        }
        self.note_delays(start, &words);
        self.write(start, &words);
    }

    /// Keeps the delays as written in mind.
    fn note_delays(&mut self, start: u16, words: &[u16]) {
        let (channel, offset) = (usize::from(start >> 12), start & 0x0FFF);
        if channel < 4 && (0x8E0..0x900).contains(&offset) {
            let delays = &mut self.delays[channel][usize::from(offset - 0x8E0)..];
            for (delay, &word) in delays.iter_mut().zip(words) {
                *delay = word;
            }
        }
    }
}

/// Lines that are no frames.
impl Session {
    fn damaged_line(&mut self) {
        let mut line = self.sound_line();
        match self.random.below(12) {
            0 => line.clear(),
            1 => line.truncate(line.len() - 1),
            2 => line.push(b'0'),
            3 => line.make_ascii_lowercase(),
            4 => line.push(b'\r'),
            5 => return self.foreign_byte(line),
            6 => return self.unknown_frame(),
            7 => return self.too_many_words(),
            8 => return self.overlong_line(),
            9 => return self.any_bytes(),
            10 => line.insert(0, b' '),
            _ => {
                let length = self.random.below(line.len() as u16);
                line.truncate(usize::from(length));
            }
        }
        self.line(&line);
    }

    /// A frame whose doing would show.
    fn sound_line(&mut self) -> Vec<u8> {
        if self.bench_percent(60) {
            return self.sound_bench_line();
        }
        let level = self.level();
        let event = self.events[0];
        let lines = [
            format!("014202{level:04X}"),
            format!("0142020001000{}", self.random.below(10)),
            "03000A".to_string(),
            "0300AF".to_string(),
            format!("04{event:02X}"),
            "020A310001".to_string(),
            "0208600004".to_string(),
            "010A04ABCD".to_string(),
        ];
        let index = self.random.below(lines.len() as u16);
        lines[usize::from(index)].clone().into_bytes()
    }

    /// A byte that is no digit, in the place of one or between two.
    fn foreign_byte(&mut self, mut line: Vec<u8>) {
        let foreign = b" \t\r\x00\x0B\x7F\x80\xA0\xC3\xFF/:@G`ag-+_xX";
        let byte = self.random.pick(foreign);
        let at = usize::from(self.random.below(line.len() as u16));
        if self.random.percent(50) {
            line[at] = byte;
        } else {
            line.insert(at, byte);
        }
        self.line(&line);
    }

    /// A first byte that names no frame, on the length of one that does.
    fn unknown_frame(&mut self) {
        if self.bench_percent(60) {
            return self.unknown_bench_frame();
        }
        let kind = self.random.pick(&[
            0x00, 0x05, 0x06, 0x0F, 0x10, 0x20, 0x30, 0x81, 0x82, 0x83, 0x84, 0xFE, 0xFF,
        ]);
        let rest = self
            .random
            .pick(&["", "01", "0001", "42020001", "0A0400010002"]);
        self.line(format!("{kind:02X}{rest}").as_bytes());
    }

    /// 65 words and more, and counts of 65 and more.
    fn too_many_words(&mut self) {
        let (start, _) = self.place();
        if self.random.percent(50) {
            let any = self.random.within(65, 65_535);
            let count = self.random.pick(&[65, 66, 0x0100, 0xFFFF, any]);
            return self.read(start, count);
        }
        let count = self.random.pick(&[65, 65, 66, 128]);
        let digits = self.random.pick(&["0001", "0000", "00FE"]);
        self.line(format!("01{start:04X}{}", digits.repeat(count)).as_bytes());
    }

    /// Thousands of bytes, which may begin like a frame.
    fn overlong_line(&mut self) {
        let begin = self.random.pick(&["", "03000A", "014202", "010080", " "]);
        let filler = self.random.pick(&["0", "1", "0001", "A", " ", "\0", "\r"]);
        let length = usize::from(self.random.within(300, 9000));
        let mut line = begin.as_bytes().to_vec();
        line.extend(filler.bytes().cycle().take(length));
        self.line(&line);
    }

    /// Any bytes but LF.
    fn any_bytes(&mut self) {
        let length = self.random.below(24);
        let mut line: Vec<u8> = Vec::new();
        for _ in 0..length {
            line.push(self.random.word() as u8);
        }
        line.retain(|&byte| byte != b'\n');
        self.line(&line);
    }
}

#[cfg(test)]
mod tests {
    use super::*;
    use crate::card::Card;
    use crate::edition::Edition;
    use crate::line::field;
    use crate::program::{self, Lines};
    use crate::reach::Reach;
    use crate::saved;
    use std::collections::BTreeSet;

    #[test]
    fn the_same_seed_gives_the_same_sessions() {
        for program in [Program::Rampcard, Program::Bench] {
            let of = |seed, index| session(program, seed, index);
            assert!((0..20).all(|index| of(7, index) == of(7, index)));
            let others = (0..20).filter(|&index| of(7, index) != of(8, index));
            assert!(others.count() > 15);
        }
    }

    /// How often sessions of the program reach each thing.
    pub(super) fn counts<const N: usize>(
        program: Program,
        sessions: u64,
        things: [&str; N],
    ) -> [u64; N] {
        let mut reach = Reach::new(program);
        for index in 0..sessions {
            reach.play(&session(program, 3, index));
        }
        let lines = reach.to_string();
        things.map(|thing| {
            let (count, _) = lines
                .lines()
                .filter_map(|line| line.trim().split_once(' '))
                .find(|&(_, name)| name == thing)
                .expect("the thing is listed");
            count.parse().unwrap()
        })
    }

    /// A hundred and fifty sessions leave no thing of the list at zero.
    #[test]
    fn the_sessions_reach_every_thing() {
        for program in [Program::Rampcard, Program::Bench] {
            let mut reach = Reach::new(program);
            for index in 0..150 {
                reach.play(&session(program, 1, index));
            }
            let lines = reach.to_string();
            let missed = lines.lines().find(|line| line.trim().starts_with("0 "));
            assert_eq!(missed, None, "{program:?}");
        }
    }

    /// How many sessions leave other settings than a reset card's: in all, and
    /// in each kind of region.
    fn changed(sessions: u64) -> (u64, [u64; SETTINGS.len()]) {
        let reset = saved::lines(&Card::fresh(Edition::One));
        let (mut all, mut kinds) = (0, [0; SETTINGS.len()]);
        for index in 0..sessions {
            let lines = saved::lines(&played(&session(Program::Rampcard, 4, index)));
            let pairs = lines
                .split(|&byte| byte == b'\n')
                .zip(reset.split(|&byte| byte == b'\n'));
            let starts: Vec<u16> = pairs
                .filter(|(line, reset)| line != reset)
                .map(|(line, _)| field(&line[2..6]).unwrap())
                .map(|start| {
                    if start < 0x4000 {
                        start & 0x0FFF
                    } else {
                        start
                    }
                })
                .collect();
            all += u64::from(!starts.is_empty());
            for (kind, (first, last, _)) in kinds.iter_mut().zip(SETTINGS) {
                let here = |start: &u16| (first..=last).contains(start);
                *kind += u64::from(starts.iter().any(here));
            }
        }
        (all, kinds)
    }

    /// The card at the end of a session of the line program.
    fn played(session: &[u8]) -> Card {
        let mut lines = Lines::new(Program::Rampcard);
        lines.take(session, &mut io::sink()).unwrap();
        lines.finish(&mut io::sink()).unwrap()
    }

    /// Few sessions end with a reset card's settings, and every kind of region
    /// is another in a third of them.
    #[test]
    fn settings_of_every_kind_are_changed_at_the_end() {
        let (all, kinds) = changed(200);
        assert!(20 * all > 19 * 200, "{all}");
        assert!(kinds.iter().all(|&kind| 3 * kind > 200), "{kinds:?}");
    }

    /// Whatever a session leaves: its lines, played and saved again, are the same.
    #[test]
    fn saved_lines_go_round() {
        for index in 0..60 {
            let lines = saved::lines(&played(&session(Program::Rampcard, 5, index)));
            assert_eq!(saved::lines(&played(&lines)), lines, "{index}");
            let answers = program::answers(Program::Rampcard, &lines);
            assert!(answers.lines().all(|answer| answer.starts_with("8100")));
        }
    }

    /// On most of the longer sessions outputs move and sums overflow.
    #[test]
    fn ramps_run_and_overflow_in_most_sessions() {
        let (mut longer, mut moved, mut overflowed) = (0, 0, 0);
        for index in 0..150 {
            let text = session(Program::Rampcard, 2, index);
            let lines: Vec<&[u8]> = text.split(|&byte| byte == b'\n').collect();
            if lines.len() < 20 {
                continue;
            }
            longer += 1;
            let mut card = Card::fresh(Edition::One);
            let mut outputs = BTreeSet::new();
            let mut counted = false;
            for line in lines {
                Program::Rampcard
                    .answer(&mut card, line, &mut Vec::new())
                    .unwrap();
                outputs.insert(card.outputs());
                let mut count = [0];
                for base in [0x0000, 0x1000, 0x2000, 0x3000] {
                    card.read(base + 0xA39, 1, &mut count);
                    counted |= count[0] > 0;
                }
            }
            moved += u32::from(outputs.len() > 5);
            overflowed += u32::from(counted);
        }
        assert!(longer > 100);
        assert!(10 * moved > 7 * longer, "{moved} of {longer}");
        assert!(10 * overflowed > 5 * longer, "{overflowed} of {longer}");
    }
}
