//! Random benches for the profile, as write frames of the line program: some
//! pass it, some break it at channel 0, some at a later channel.

use std::fs;
use std::io;
use std::path::Path;

use crate::card::{Card, CHANNELS, NULL_EVENT};
use crate::channel::{Ramp, LEVELS};
use crate::edition::{Edition, Fraction};
use crate::random::Random;
use crate::saved;
use crate::sine::{in_range, signed};

/// Whether a bench passes the profile, or where it breaks it.
#[derive(Clone, Copy, Debug, PartialEq, Eq)]
pub enum Kind {
    Passes,
    BreaksFirst,
    BreaksLater,
}

impl Kind {
    pub const ALL: [Kind; 3] = [Kind::Passes, Kind::BreaksFirst, Kind::BreaksLater];

    /// The channels that break the profile, the first of them and perhaps some
    /// after it.
    fn breaking(self, random: &mut Random) -> [bool; CHANNELS] {
        let first = match self {
            Kind::Passes => CHANNELS,
            Kind::BreaksFirst => 0,
            Kind::BreaksLater => usize::from(random.within(1, 3)),
        };
        std::array::from_fn(|channel| channel == first || channel > first && random.percent(40))
    }
}

/// How large a bench is made.
pub struct Size {
    /// The fewest and the most tables of a channel.
    tables: (u16, u16),
    /// The most words of a frame, one of these for each region.
    words: &'static [usize],
}

/// Benches in files, and in sessions.
const LARGE: Size = Size {
    tables: (3, 12),
    words: &[64, 64, 64, 20, 7],
};
pub const SMALL: Size = Size {
    tables: (1, 2),
    words: &[64],
};

/// The words of one write frame.
pub struct Write {
    pub start: u16,
    pub words: Vec<u16>,
}

/// Writes the benches DIR/0000.txt, DIR/0001.txt, ... of the seed.
pub fn write_all(seed: u64, count: u64, directory: &Path) -> io::Result<()> {
    fs::create_dir_all(directory)?;
    for index in 0..count {
        let name = format!("{index:04}.txt");
        fs::write(directory.join(name), bench(seed, index))?;
    }
    Ok(())
}

/// One bench, of each kind in turn; it depends on the seed and its index alone.
fn bench(seed: u64, index: u64) -> Vec<u8> {
    let mut random = Random::of(seed, index);
    let kind = Kind::ALL[(index % 3) as usize];
    let mut writes = channels(&mut random, kind, &LARGE);
    writes.extend(triggers(&mut random));
    random.shuffle(&mut writes);
    if random.percent(40) {
        let first = overwritten(&mut random, &writes);
        writes.splice(0..0, first);
    }
    if random.percent(15) {
        saved::lines(&played(&writes))
    } else {
        writes.iter().flat_map(Write::line).collect()
    }
}

impl Write {
    fn line(&self) -> Vec<u8> {
        let digits: String = self.words.iter().map(|w| format!("{w:04X}")).collect();
        format!("01{:04X}{digits}\n", self.start).into_bytes()
    }
}

/// The card after the writes.
fn played(writes: &[Write]) -> Card {
    let mut card = Card::fresh(Edition::One);
    for write in writes {
        card.write(write.start, write.words.len(), &write.words);
    }
    card
}

/// Writes of a bench's tables, scale factors or offsets with great words in
/// them, which the bench's own writes are to replace.
fn overwritten(random: &mut Random, writes: &[Write]) -> Vec<Write> {
    let any_word = |write: &&Write| {
        let offset = write.start & 0x0FFF;
        write.start < 0x4000 && matches!(offset, 0x080..=0x7FF | 0x861..=0x87F | 0x8A1..=0x8BF)
    };
    let mut first = Vec::new();
    for write in writes.iter().filter(any_word) {
        if random.percent(10) {
            let word = random.pick(&[0x7FFF, 0x8000, 0x7000]);
            first.push(Write {
                start: write.start,
                words: vec![word; write.words.len()],
            });
        }
    }
    first
}

/// Events for no level, for some or for all, and the switch of the clock.
fn triggers(random: &mut Random) -> Vec<Write> {
    let held = random.pick(&[0, 10, 30, 100]);
    let mut writes = vec![Write {
        start: 0x4200,
        words: vec![random.below(2)],
    }];
    for level in 0..LEVELS as u16 {
        if random.percent(held) {
            let slot = 8 * level + random.below(7);
            // Each event at one level.
            writes.push(Write {
                start: 0x4000 + slot,
                words: vec![slot, random.pick(&[slot, NULL_EVENT.into()])],
            });
        }
    }
    writes
}

/// The settings of all channels: every map, and all that their entries name, so
/// that they leave a bench of the kind whatever was written before.
pub fn channels(random: &mut Random, kind: Kind, size: &Size) -> Vec<Write> {
    let mut writes = Vec::new();
    for (base, breaks) in (0..).step_by(0x1000).zip(kind.breaking(random)) {
        let mut channel = Channel::new(random, size.tables);
        if breaks {
            channel.break_some_levels(random);
        }
        let mut regions = channel.regions();
        regions.extend(other_regions(random));
        for (offset, words) in regions {
            writes.extend(frames(random, size, base + offset, &words));
        }
    }
    writes
}

/// The words from an address on, in frames that are all of one length but the
/// last.
fn frames(random: &mut Random, size: &Size, start: u16, words: &[u16]) -> Vec<Write> {
    let most = random.pick(size.words);
    let frame = |(start, words): (u16, &[u16])| Write {
        start,
        words: words.to_vec(),
    };
    let starts = (start..).step_by(most);
    starts.zip(words.chunks(most)).map(frame).collect()
}

/// Words of a channel's regions that the profile does not look at.
fn other_regions(random: &mut Random) -> Vec<(u16, Vec<u16>)> {
    let mut regions = vec![(0xA00, vec![random.below(2)])];
    if random.percent(50) {
        regions.push((0xA01, vec![random.pick(&[0, 1, 1, 4, 5])]));
    }
    for (offset, greatest) in [(0x8E0, 70), (0x900, 31), (0x920, 0xFFFF), (0x960, 0xFFFF)] {
        if random.percent(20) {
            let words = (0..4).map(|_| random.within(0, greatest)).collect();
            regions.push((offset, words));
        }
    }
    regions
}

/// The values of a ramp whose sums are in range: all from the lowest to the
/// highest. 0 is one of them, since its sum is the offset.
struct Room {
    lowest: i64,
    highest: i64,
}

impl Room {
    fn of(ramp: Ramp) -> Room {
        Room {
            lowest: -furthest(32_768, |size| fits(sum_at(ramp, -size))),
            highest: furthest(32_767, |size| fits(sum_at(ramp, size))),
        }
    }

    /// A value in range, often at a border.
    fn inside(&self, random: &mut Random) -> u16 {
        let span = (self.highest - self.lowest) as u16;
        let any = self.lowest + i64::from(random.within(0, span));
        let small = i64::from(random.within(0, 200)) - 100;
        let small = small.clamp(self.lowest, self.highest);
        random.pick(&[self.lowest, self.highest, small, small, any, any, any]) as u16
    }

    /// A value out of range, often next to the border, if there is one.
    fn outside(&self, random: &mut Random) -> Option<u16> {
        let below = [self.lowest - 1, self.lowest - 1, -32_768];
        let above = [self.highest + 1, self.highest + 1, 32_767];
        let mut sides = Vec::new();
        sides.extend((self.lowest > -32_768).then_some(below));
        sides.extend((self.highest < 32_767).then_some(above));
        if sides.is_empty() {
            return None;
        }
        let side = random.pick(&sides);
        Some(random.pick(&side) as u16)
    }
}

/// The sum at a point, where both editions have the same one.
fn sum_at(ramp: Ramp, value: i64) -> i64 {
    ramp.sum(Edition::One, Fraction::whole(value))
}

fn fits(sum: i64) -> bool {
    in_range(sum).is_some()
}

/// The greatest number up to the limit that is good. 0 is, and with each good
/// number all smaller ones are.
fn furthest(limit: i64, good: impl Fn(i64) -> bool) -> i64 {
    let (mut inside, mut outside) = (0, limit + 1);
    while outside - inside > 1 {
        let middle = (inside + outside) / 2;
        if good(middle) {
            inside = middle;
        } else {
            outside = middle;
        }
    }
    inside
}

/// What the three maps name for a level: places in the channel's lists.
#[derive(Clone, Copy, Default)]
struct Level {
    table: usize,
    scale: usize,
    offset: usize,
}

/// A table, up to its end and often beyond.
struct Table {
    points: Vec<[u16; 2]>,
    /// The number of the end point.
    end: usize,
    /// A scale factor and an offset that it was made for.
    home: Level,
}

/// A channel being made. Its lists begin with what is fixed.
struct Channel {
    tables: Vec<Table>,
    scales: Vec<u16>,
    offsets: Vec<u16>,
    /// The numbers that the tables and the entries of the lists get.
    table_numbers: Vec<u16>,
    scale_numbers: Vec<u16>,
    offset_numbers: Vec<u16>,
    levels: [Level; LEVELS],
}

/// 0, then the numbers below the count in some order.
fn numbers(random: &mut Random, count: u16) -> Vec<u16> {
    let mut numbers: Vec<u16> = (0..count).collect();
    random.shuffle(&mut numbers[1..]);
    numbers
}

impl Channel {
    /// A channel of which every level is in range.
    fn new(random: &mut Random, (fewest, most): (u16, u16)) -> Channel {
        let mut channel = Channel {
            tables: vec![Table {
                points: vec![[0, 0]],
                end: 0,
                home: Level::default(),
            }],
            scales: vec![0x0100],
            offsets: vec![0],
            table_numbers: numbers(random, 16),
            scale_numbers: numbers(random, 32),
            offset_numbers: numbers(random, 32),
            levels: [Level::default(); LEVELS],
        };
        for _ in 0..random.within(fewest, most) {
            channel.add_table(random, false);
        }
        let mapped = random.pick(&[20, 80, 100]);
        for level in 0..LEVELS {
            if random.percent(mapped) {
                channel.levels[level] = channel.level_in_range(random);
            }
        }
        channel
    }

    /// The ramp of a level; the list's place stands for the table's number.
    fn ramp(&self, level: Level) -> Ramp {
        Ramp {
            table: level.table as u16,
            scale: self.scales[level.scale],
            offset: self.offsets[level.offset],
        }
    }

    /// The sums of a level's points up to the end.
    fn sums(&self, level: Level) -> impl Iterator<Item = i64> + '_ {
        let ramp = self.ramp(level);
        let table = &self.tables[level.table];
        let points = &table.points[..=table.end];
        points
            .iter()
            .map(move |&[value, _]| sum_at(ramp, signed(value)))
    }

    fn fits(&self, level: Level) -> bool {
        self.sums(level).all(fits)
    }

    /// A new table for a new scale factor and a new offset, or for those that
    /// are fixed: in range, or out of range at some of its points.
    fn add_table(&mut self, random: &mut Random, breaks: bool) -> Level {
        let mut home = Level {
            table: self.tables.len(),
            scale: 0,
            offset: 0,
        };
        if breaks || random.percent(85) {
            home.scale = self.scales.len();
            self.scales.push(scale(random, breaks));
        }
        if random.percent(70) {
            home.offset = self.offsets.len();
            self.offsets.push(offset(random));
        }
        let end = random.pick(&[0, 1, 1, 2, 3, 4, 7, 15, 30, 31, 32, 62, 63, 63, 63, 63]);
        let broken = if breaks {
            some_points(random, end)
        } else {
            Vec::new()
        };
        let points = points(random, &Room::of(self.ramp(home)), end, &broken);
        self.tables.push(Table { points, end, home });
        home
    }

    /// Some table with its own scale factor and offset, or with others of the
    /// channel with which it is in range too.
    fn level_in_range(&self, random: &mut Random) -> Level {
        let home = self.any_table(random).home;
        let other = (0..4)
            .map(|_| self.any_entries(random, home.table))
            .find(|&level| self.fits(level));
        random.pick(&[home, other.unwrap_or(home)])
    }

    fn any_table(&self, random: &mut Random) -> &Table {
        let table = random.below(self.tables.len() as u16);
        &self.tables[usize::from(table)]
    }

    fn any_entries(&self, random: &mut Random, table: usize) -> Level {
        let scale = random.below(self.scales.len() as u16);
        let offset = random.below(self.offsets.len() as u16);
        Level {
            table,
            scale: usize::from(scale),
            offset: usize::from(offset),
        }
    }

    /// Takes a level out of range, and often more levels after it.
    fn break_some_levels(&mut self, random: &mut Random) {
        let any = random.below(LEVELS as u16);
        let first = usize::from(random.pick(&[any, any, any, any, 0, 31]));
        let more = random.pick(&[0, 0, 10, 50]);
        for level in first..LEVELS {
            if level == first || random.percent(more) {
                self.levels[level] = self.level_out_of_range(random);
            }
        }
    }

    fn level_out_of_range(&mut self, random: &mut Random) -> Level {
        let level = match random.below(4) {
            0 => self.moved_too_far(random),
            1 => self.unlucky_entries(random),
            _ => None,
        };
        match level {
            Some(level) => level,
            None if self.tables.len() < 16 => self.add_table(random, true),
            None => self.broken_before(),
        }
    }

    /// A table in range, moved by an offset that is too great by one.
    fn moved_too_far(&mut self, random: &mut Random) -> Option<Level> {
        let home = self.any_table(random).home;
        let unmoved = Level { offset: 0, ..home };
        let highest = 32_768 - self.sums(unmoved).max()?;
        let lowest = -32_769 - self.sums(unmoved).min()?;
        let offset = random.pick(&[highest, lowest]);
        if self.offsets.len() > 16 || !fits(offset) {
            return None;
        }
        self.offsets.push(offset as u16);
        Some(Level {
            offset: self.offsets.len() - 1,
            ..home
        })
    }

    /// A scale factor and an offset that other tables have, and with which
    /// this one is out of range.
    fn unlucky_entries(&self, random: &mut Random) -> Option<Level> {
        let table = self.any_table(random).home.table;
        (0..10)
            .map(|_| self.any_entries(random, table))
            .find(|&level| !self.fits(level))
    }

    /// A level out of range as the last table that was made so.
    fn broken_before(&self) -> Level {
        let homes = self.tables.iter().rev().map(|table| table.home);
        let mut broken = homes.filter(|&level| !self.fits(level));
        broken.next().expect("the list was filled by such tables")
    }

    /// The words of the tables, of the entries and of the maps, each from its
    /// offset.
    fn regions(&self) -> Vec<(u16, Vec<u16>)> {
        let mut regions = Vec::new();
        for (number, table) in self.table_numbers.iter().zip(&self.tables).skip(1) {
            regions.push((128 * number, table.points.concat()));
        }
        let map = |of: fn(&Level) -> usize, numbers: &[u16]| {
            let entry = |level| numbers[of(level)];
            self.levels.iter().map(entry).collect::<Vec<u16>>()
        };
        regions.extend([
            (0x800, map(|level| level.table, &self.table_numbers)),
            (0x840, map(|level| level.scale, &self.scale_numbers)),
            (0x880, map(|level| level.offset, &self.offset_numbers)),
            (0x861, entries(&self.scale_numbers, &self.scales, 0x0100)),
            (0x8A1, entries(&self.offset_numbers, &self.offsets, 0)),
        ]);
        regions
    }
}

/// The entries 1 to 31: the words by their numbers, the others as after a reset.
fn entries(numbers: &[u16], words: &[u16], reset: u16) -> Vec<u16> {
    let mut entries = vec![reset; numbers.len()];
    for (&number, &word) in numbers.iter().zip(words) {
        entries[usize::from(number)] = word;
    }
    entries.split_off(1)
}

/// A scale factor of either sign and of any size; one that breaks takes some
/// values out of range whatever the offset.
fn scale(random: &mut Random, breaks: bool) -> u16 {
    let any = random.word();
    let near = random.within(0x00F0, 0x0110);
    let usual = [0x0100, 0x0080, 0xFF00, 0xFF80, 0x0001, 0xFFFF, 0x0000, near];
    let great = [
        0x0200, 0xFE00, 0x0101, 0xFEFE, 0x7FFF, 0x8000, 0x0400, 0xF123,
    ];
    let one = random.pick(&usual);
    let two = random.pick(&great);
    if breaks {
        two
    } else {
        random.pick(&[one, one, two, two, any])
    }
}

fn offset(random: &mut Random) -> u16 {
    let any = random.word();
    let small = random.within(0, 20).wrapping_sub(10);
    random.pick(&[any, any, small, small, 0x7FFF, 0x8000, 0x8001])
}

/// Some of the points up to the end, often the end alone.
fn some_points(random: &mut Random, end: usize) -> Vec<usize> {
    let between = usize::from(random.below(end as u16 + 1));
    match random.below(8) {
        0..=2 => vec![end],
        3 => vec![0],
        4 | 5 => vec![between],
        6 => vec![between, end],
        _ => (0..=end).collect(),
    }
}

/// The points of a table: in range up to its end but for those broken, out of
/// range past it where that can be.
fn points(random: &mut Random, room: &Room, end: usize, broken: &[usize]) -> Vec<[u16; 2]> {
    let last = random.pick(&[end, end + 1, end + 3, 63]).clamp(end, 63);
    let mut points = Vec::new();
    for point in 0..=last {
        let any = random.word();
        let value = if point > end || broken.contains(&point) {
            room.outside(random).unwrap_or(any)
        } else {
            room.inside(random)
        };
        let step = random.pick(&[1, 1, 2, 3, 10, 300, 65_535]);
        // Point 63 ends the ramp without a mark too.
        let marked = point == end && (point < 63 || random.percent(30));
        points.push([value, if marked { 0 } else { step }]);
    }
    points
}

#[cfg(test)]
mod tests {
    use super::*;
    use crate::profile::{self, Break};
    use crate::program::{self, Program};
    use std::collections::BTreeSet;

    /// The card of a bench, whose frames are all answered 0.
    fn card(seed: u64, index: u64) -> Card {
        let lines = bench(seed, index);
        let answers = program::answers(Program::Rampcard, &lines);
        assert!(answers.lines().all(|answer| answer.starts_with("8100")));
        let mut card = Card::fresh(Edition::One);
        for line in lines.split(|&byte| byte == b'\n') {
            let mut answer = Vec::new();
            Program::Rampcard
                .answer(&mut card, line, &mut answer)
                .unwrap();
        }
        card
    }

    #[test]
    fn the_same_seed_gives_the_same_benches() {
        assert!((0..9).all(|index| bench(7, index) == bench(7, index)));
        assert!((0..9).all(|index| bench(7, index) != bench(8, index)));
    }

    #[test]
    fn of_each_kind_a_third() {
        for index in 0..240 {
            let channel = profile::check(&card(3, index)).map(|broken| broken.channel);
            let expected = match Kind::ALL[(index % 3) as usize] {
                Kind::Passes => channel.is_none(),
                Kind::BreaksFirst => channel == Some(0),
                Kind::BreaksLater => channel.is_some_and(|channel| channel > 0),
            };
            assert!(expected, "{index}");
        }
    }

    /// A bench that passes has ramps of many points on all channels.
    #[test]
    fn benches_that_pass_are_not_empty() {
        for index in (0..240).step_by(3) {
            let card = card(3, index);
            for channel in 0..CHANNELS {
                let ramps = (0..LEVELS).map(|level| card.ramp(channel, level));
                let tables: BTreeSet<u16> = ramps.map(|ramp| ramp.table).collect();
                assert!(tables.len() > 1, "{index}");
            }
        }
    }

    /// The places where benches break are spread: all channels, the first and
    /// the last level, and the first and the last point among others.
    #[test]
    fn places_of_all_kinds() {
        let places: Vec<Break> = (0..900)
            .filter_map(|index| profile::check(&card(4, index)))
            .collect();
        let values = |of: fn(&Break) -> usize| places.iter().map(of).collect::<BTreeSet<usize>>();
        assert_eq!(values(|place| place.channel).len(), 4);
        assert_eq!(values(|place| place.level).len(), 32);
        assert_eq!(values(|place| place.table.into()).len(), 15);
        let points = values(|place| place.point);
        assert!(points.contains(&0) && points.contains(&63) && points.len() > 20);
    }

    #[test]
    fn the_values_next_to_a_border() {
        for (scale, offset, lowest, highest) in [
            (0x0100, 0, -32_768, 32_767),
            (0x0100, 1, -32_768, 32_766),
            (0x0200, 1, -16_384, 16_383),
            (0x0200, 2, -16_385, 16_382),
            (0xFF00, 0, -32_767, 32_767),
            (0x8000, 0, -255, 256),
            (0x0000, 0x8000, -32_768, 32_767),
        ] {
            let table = 1;
            let room = Room::of(Ramp {
                table,
                scale,
                offset,
            });
            assert_eq!(
                (room.lowest, room.highest),
                (lowest, highest),
                "{scale:04X}"
            );
        }
    }
}
