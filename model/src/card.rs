//! The four-channel ramp card, stepped plainly one microsecond at a time.

use crate::channel::{Active, Channel, Look, Ramp, Trigger, LEVELS, TABLE_WORDS};
use crate::edition::Edition;
use crate::map::{Access, Answer, Number, Place, Region, Walk};
use crate::sine::Wave;

/// The channels of the card, 0 to 3.
pub const CHANNELS: usize = 4;

const SLOTS_PER_LEVEL: usize = 8;
const SLOTS: usize = LEVELS * SLOTS_PER_LEVEL;
/// "Event 0xFE is null."
pub const NULL_EVENT: u8 = 0xFE;

/// The whole card.
#[derive(Clone, Debug)]
pub struct Card {
    edition: Edition,
    channels: [Channel; CHANNELS],
    slots: [u8; SLOTS],
    clock_enable: u16,
    active: Active,
    level_counts: [u16; LEVELS],
}

impl Card {
    /// A fresh card of an edition.
    pub fn fresh(edition: Edition) -> Self {
        Card {
            edition,
            channels: std::array::from_fn(|_| Channel::new()),
            slots: [NULL_EVENT; SLOTS],
            clock_enable: 0,
            active: Active {
                shown: Trigger {
                    level: 0,
                    event: NULL_EVENT,
                },
                pending: None,
            },
            level_counts: [0; LEVELS],
        }
    }

    /// A reset: all is as on a fresh card of the edition, which survives it.
    pub fn reset(&mut self) {
        *self = Card::fresh(self.edition);
    }

    pub fn edition(&self) -> Edition {
        self.edition
    }

    /// The four outputs.
    pub fn outputs(&self) -> [u16; CHANNELS] {
        std::array::from_fn(|channel| self.channels[channel].output)
    }

    /// A look at every channel.
    pub fn looks(&self) -> [Look; CHANNELS] {
        std::array::from_fn(|channel| self.channels[channel].look())
    }

    /// The trigger that 0x4210 and 0x4211 show.
    pub fn shown(&self) -> Trigger {
        self.active.shown
    }

    /// The last trigger, if no channel has loaded since.
    pub fn pending(&self) -> Option<Trigger> {
        self.active.pending
    }

    /// The ramp of a channel's level as the settings stand.
    pub fn ramp(&self, channel: usize, level: usize) -> Ramp {
        self.channels[channel].ramp(level)
    }

    /// The words of the table that a ramp of the channel plays.
    pub fn table_of(&self, channel: usize, ramp: Ramp) -> &[u16] {
        let table = self.table(channel, usize::from(ramp.table));
        table.expect("a ramp map holds 0 to 15")
    }

    /// The words of a table as they stand in the settings, if it is there.
    pub fn table(&self, channel: usize, table: usize) -> Option<&[u16]> {
        let tables = &self.channels.get(channel)?.tables;
        tables.chunks_exact(TABLE_WORDS).nth(table)
    }

    /// One tick, one microsecond, without an event.
    #[inline(always)]
    pub fn tick(&mut self) {
        for channel in &mut self.channels {
            channel.tick(self.edition, &mut self.active);
        }
    }

    /// One tick with an event: first every channel, then the event.
    pub fn event(&mut self, event: u8) {
        self.tick();
        self.receive(event);
    }

    /// The event of a tick; whether it is an accepted trigger.
    pub fn receive(&mut self, event: u8) -> bool {
        let level = match self.level_of(event) {
            Some(level) if self.clock_enable == 1 => level,
            _ => return false,
        };
        self.trigger(level, event);
        true
    }

    /// The level some slot of which holds the event; none holds the null one.
    pub fn level_of(&self, event: u8) -> Option<u8> {
        if event == NULL_EVENT {
            return None;
        }
        let slot = self.slots.iter().position(|&held| held == event)?;
        Some((slot / SLOTS_PER_LEVEL) as u8)
    }

    /// An accepted trigger.
    fn trigger(&mut self, level: u8, event: u8) {
        let count = &mut self.level_counts[usize::from(level)];
        *count = count.wrapping_add(1);
        self.active.pending = Some(Trigger { level, event });
        for channel in &mut self.channels {
            channel.trigger(level, &mut self.active);
        }
    }

    /// Reads `count` words from `start` into the slice's first words.
    pub fn read(&self, start: u16, count: usize, slice: &mut [u16]) -> Answer {
        let mut walk = Walk::new(start);
        let end = self.read_along(&mut walk, count, slice);
        walk.answer(end)
    }

    fn read_along(&self, walk: &mut Walk, count: usize, slice: &mut [u16]) -> Result<(), Number> {
        let start = walk.begin(count, slice.len(), Access::Read)?;
        for word in &mut slice[..count] {
            *word = self.read_word(walk.word(start)?);
            walk.step();
        }
        Ok(())
    }

    /// Writes the slice's first `count` words from `start` on, word by word.
    pub fn write(&mut self, start: u16, count: usize, slice: &[u16]) -> Answer {
        let mut walk = Walk::new(start);
        let end = self.write_along(&mut walk, count, slice);
        walk.answer(end)
    }

    fn write_along(&mut self, walk: &mut Walk, count: usize, slice: &[u16]) -> Result<(), Number> {
        let start = walk.begin(count, slice.len(), Access::Write)?;
        for &value in &slice[..count] {
            let at = walk.word(start)?;
            self.accept(at, value)?;
            self.write_word(at, value);
            walk.step();
        }
        Ok(())
    }

    /// The checks of one word to write, in their order: 5, 6, 7, 8.
    fn accept(&self, at: Place, value: u16) -> Result<(), Number> {
        if at.region.is_fixed(at.index) {
            return Err(Number::Fixed);
        }
        if !at.region.accepts(value) {
            return Err(Number::BadValue);
        }
        if at.region == Region::TriggerMap && self.held_elsewhere(at.index, value as u8) {
            return Err(Number::Held);
        }
        if at.region == Region::Output && self.channels[at.channel].runs() {
            return Err(Number::RampRuns);
        }
        Ok(())
    }

    /// Whether a slot of a level other than this slot's holds the event.
    fn held_elsewhere(&self, slot: usize, event: u8) -> bool {
        self.level_of(event)
            .is_some_and(|level| usize::from(level) != slot / SLOTS_PER_LEVEL)
    }

    /// The word at a place that may be read.
    fn read_word(&self, at: Place) -> u16 {
        match at.region {
            Region::TriggerMap => u16::from(self.slots[at.index]),
            Region::EventImage => self.image(at.index as u8),
            Region::ClockEnable => self.clock_enable,
            Region::ActiveLevel => u16::from(self.active.shown.level),
            Region::ActiveEvent => u16::from(self.active.shown.event),
            Region::LevelCounts => self.level_counts[at.index],
            Region::Erase | Region::Manual => unreachable!("write-only words are refused"),
            region => self.channels[at.channel].read_word(region, at.index),
        }
    }

    /// Copies settings of a channel's or of the card's row, from its word
    /// `index` on, into all of the slice.
    pub fn copy_settings(&self, channel: usize, region: Region, index: usize, slice: &mut [u16]) {
        let words = index..index + slice.len();
        match region {
            Region::TriggerMap => {
                for (word, &event) in slice.iter_mut().zip(&self.slots[words]) {
                    *word = u16::from(event);
                }
            }
            Region::ClockEnable => slice.fill(self.clock_enable),
            region => slice.copy_from_slice(&self.channels[channel].settings(region)[words]),
        }
    }

    /// 0x0080 + level if the event is not null and some slot holds it, else 0.
    fn image(&self, event: u8) -> u16 {
        self.level_of(event)
            .map_or(0, |level| 0x0080 + u16::from(level))
    }

    /// Does one accepted write with all its effects.
    fn write_word(&mut self, at: Place, value: u16) {
        match at.region {
            // "Any, sets 0."
            Region::LevelCounts => self.level_counts[at.index] = 0,
            Region::TriggerMap => self.slots[at.index] = value as u8,
            Region::ClockEnable => self.clock_enable = value,
            Region::Erase if value == 1 => self.slots = [NULL_EVENT; SLOTS],
            Region::Erase => {}
            Region::Manual => self.trigger(value as u8, NULL_EVENT),
            region => self.channels[at.channel].write_word(region, at.index, value),
        }
    }

    /// Hands in the wave table of a channel, whole. 9 for the channel, the
    /// length or a word comes first, then 8; neither changes anything.
    pub fn wave_table(&mut self, channel: usize, words: &[u16]) -> Number {
        let (Some(channel), Some(wave)) = (self.channels.get_mut(channel), Wave::of(words)) else {
            return Number::BadWave;
        };
        if channel.runs() {
            return Number::RampRuns;
        }
        channel.wave = wave;
        Number::Done
    }
}

#[cfg(test)]
#[path = "card_tests.rs"]
mod tests;

#[cfg(test)]
#[path = "sine_tests.rs"]
mod sine_tests;

#[cfg(test)]
#[path = "editions_tests.rs"]
mod editions_tests;

#[cfg(test)]
#[path = "stops_tests.rs"]
mod stops_tests;
