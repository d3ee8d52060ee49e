//! The map of words: its rows, the values they accept, the numbers of refusals,
//! and the walk of a transfer over it.

use crate::channel::TABLE_WORDS;
use crate::sine::Mode;

/// The largest count a transfer may name.
const MAX_COUNT: usize = 16_381;

/// The number that a transfer, a wave table or a save is answered with.
#[derive(Clone, Copy, Debug, PartialEq, Eq)]
#[repr(u8)]
pub enum Number {
    /// Every word done.
    Done = 0,
    /// Count 0, above 16,381, or above the slice's length.
    BadCount = 1,
    /// Start in no region.
    NoRegion = 2,
    /// Region lacks this access.
    NoAccess = 3,
    /// Next word lies beyond the start's region.
    Beyond = 4,
    /// Write to a fixed word, whatever the value.
    Fixed = 5,
    /// Value not accepted, reserved bits included.
    BadValue = 6,
    /// Event held by another level.
    Held = 7,
    /// Write to A04, or a wave table, while the channel runs or free-runs.
    RampRuns = 8,
    /// A wave table for a channel above 3, of a wrong length or with a word
    /// out of range.
    BadWave = 9,
    /// A buffer shorter than the saved lines need.
    ShortBuffer = 10,
}

/// A number, the words processed, counted only when really done, and the
/// address of the first word not done.
#[derive(Clone, Copy, Debug, PartialEq, Eq)]
pub struct Answer {
    pub number: Number,
    pub processed: usize,
    pub address: u16,
}

#[derive(Clone, Copy, Debug, PartialEq, Eq)]
pub enum Access {
    Read,
    Write,
    Both,
}

impl Access {
    fn allows(self, wanted: Access) -> bool {
        self == Access::Both || self == wanted
    }
}

/// One row of the map of words.
#[derive(Clone, Copy, Debug, PartialEq, Eq)]
pub enum Region {
    Tables,
    RampMap,
    ScaleMap,
    Scales,
    OffsetMap,
    Offsets,
    Delays,
    FrequencyMap,
    Frequencies,
    PhaseMap,
    Phases,
    Enable,
    Mode,
    Output,
    LoadedTable,
    LoadedScale,
    LoadedOffset,
    Segment,
    SamplesLeft,
    Overflows,
    TriggerMap,
    EventImage,
    ClockEnable,
    Erase,
    Manual,
    ActiveLevel,
    ActiveEvent,
    LevelCounts,
}

impl Region {
    /// Whether the value is accepted, reserved bits included.
    pub fn accepts(self, value: u16) -> bool {
        match self {
            Region::RampMap => value <= 15,
            Region::ScaleMap | Region::OffsetMap | Region::Manual => value <= 31,
            Region::FrequencyMap | Region::PhaseMap => value <= 31,
            Region::Enable | Region::ClockEnable | Region::Erase => value <= 1,
            Region::Mode => Mode(value).is_accepted(),
            Region::TriggerMap => value <= 0xFF,
            _ => true,
        }
    }

    /// The fixed words, which come first: table 0, and entry 0 of the scale
    /// factors and of the offsets.
    pub fn fixed_words(self) -> usize {
        match self {
            Region::Tables => TABLE_WORDS,
            Region::Scales | Region::Offsets => 1,
            _ => 0,
        }
    }

    pub fn is_fixed(self, index: usize) -> bool {
        index < self.fixed_words()
    }
}

/// First address, last address, access and region.
pub type Row = (u16, u16, Access, Region);

/// "Settings are the RW words except A04, A39 and the level counts."
pub fn holds_settings(&(_, _, access, region): &Row) -> bool {
    let counted = matches!(region, Region::Overflows | Region::LevelCounts);
    access == Access::Both && region != Region::Output && !counted
}

/// The rows of one channel, from its base.
pub const CHANNEL_ROWS: [Row; 20] = [
    (0x000, 0x7FF, Access::Both, Region::Tables),
    (0x800, 0x81F, Access::Both, Region::RampMap),
    (0x840, 0x85F, Access::Both, Region::ScaleMap),
    (0x860, 0x87F, Access::Both, Region::Scales),
    (0x880, 0x89F, Access::Both, Region::OffsetMap),
    (0x8A0, 0x8BF, Access::Both, Region::Offsets),
    (0x8E0, 0x8FF, Access::Both, Region::Delays),
    (0x900, 0x91F, Access::Both, Region::FrequencyMap),
    (0x920, 0x93F, Access::Both, Region::Frequencies),
    (0x940, 0x95F, Access::Both, Region::PhaseMap),
    (0x960, 0x97F, Access::Both, Region::Phases),
    (0xA00, 0xA00, Access::Both, Region::Enable),
    (0xA01, 0xA01, Access::Both, Region::Mode),
    (0xA04, 0xA04, Access::Both, Region::Output),
    (0xA30, 0xA30, Access::Read, Region::LoadedTable),
    (0xA31, 0xA31, Access::Read, Region::LoadedScale),
    (0xA32, 0xA32, Access::Read, Region::LoadedOffset),
    (0xA33, 0xA33, Access::Read, Region::Segment),
    (0xA34, 0xA34, Access::Read, Region::SamplesLeft),
    (0xA39, 0xA39, Access::Both, Region::Overflows),
];

/// The rows the four channels share.
pub const CARD_ROWS: [Row; 8] = [
    (0x4000, 0x40FF, Access::Both, Region::TriggerMap),
    (0x4100, 0x41FF, Access::Read, Region::EventImage),
    (0x4200, 0x4200, Access::Both, Region::ClockEnable),
    (0x4201, 0x4201, Access::Write, Region::Erase),
    (0x4202, 0x4202, Access::Write, Region::Manual),
    (0x4210, 0x4210, Access::Read, Region::ActiveLevel),
    (0x4211, 0x4211, Access::Read, Region::ActiveEvent),
    (0x4220, 0x423F, Access::Both, Region::LevelCounts),
];

/// The place of an address: the region, its channel, and the word in it.
#[derive(Clone, Copy, Debug)]
pub struct Place {
    pub region: Region,
    access: Access,
    pub channel: usize,
    /// The address's word, counted from the region's first.
    pub index: usize,
}

impl Place {
    /// The region an address belongs to, if any.
    pub fn find(address: u16) -> Option<Place> {
        let (rows, channel, offset) = if address < 0x4000 {
            let channel = usize::from(address >> 12);
            (&CHANNEL_ROWS[..], channel, address & 0x0FFF)
        } else {
            (&CARD_ROWS[..], 0, address)
        };
        let &(first, _, access, region) = rows
            .iter()
            .find(|&&(first, last, ..)| first <= offset && offset <= last)?;
        Some(Place {
            region,
            access,
            channel,
            index: usize::from(offset - first),
        })
    }

    /// Whether both lie in one region: each row is one for every channel.
    pub fn shares_region(self, other: Place) -> bool {
        (self.region, self.channel) == (other.region, other.channel)
    }
}

/// A transfer on its way upwards: it stands at the first word not done.
pub struct Walk {
    address: u16,
    processed: usize,
}

impl Walk {
    pub fn new(start: u16) -> Self {
        Walk {
            address: start,
            processed: 0,
        }
    }

    /// The checks made once, at the start, in their order: 1, 2, 3.
    pub fn begin(&self, count: usize, length: usize, wanted: Access) -> Result<Place, Number> {
        if count == 0 || count > MAX_COUNT || count > length {
            return Err(Number::BadCount);
        }
        let start = Place::find(self.address).ok_or(Number::NoRegion)?;
        if start.access.allows(wanted) {
            Ok(start)
        } else {
            Err(Number::NoAccess)
        }
    }

    /// The word it stands at, or 4 if that lies beyond the start's region.
    pub fn word(&self, start: Place) -> Result<Place, Number> {
        Place::find(self.address)
            .filter(|word| word.shares_region(start))
            .ok_or(Number::Beyond)
    }

    /// The word it stood at is done.
    pub fn step(&mut self) {
        self.address += 1;
        self.processed += 1;
    }

    /// The transfer has ended where it stands.
    pub fn answer(self, end: Result<(), Number>) -> Answer {
        Answer {
            number: end.err().unwrap_or(Number::Done),
            processed: self.processed,
            address: self.address,
        }
    }
}
