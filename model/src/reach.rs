//! What sessions reach: things that are counted while they are played.

mod edition;
mod profile;
mod sine;
mod stops;

use std::collections::BTreeSet;
use std::fmt;

use crate::bench::Frame;
use crate::card::{Card, CHANNELS, NULL_EVENT};
use crate::channel::{Look, Trigger, LOAD_AT};
use crate::edition::Edition;
use crate::line;
use crate::program::Program;
use crate::saved;
use edition::Twin;
use sine::{Origin, Written};
use stops::Stops;

const NO_FRAME: &str = "lines that are no frame";
const SHOWN: &str = "plotted points shown";
const NOT_SHOWN: &str = "plotted points not shown";
const RESETS: &str = "resets while a ramp runs";
const RESETS_PENDING: &str = "resets while a trigger is pending";
const LOAD_AND_EVENT: &str = "ticks with a load by counting and an accepted event";
const WHILE_RUNNING: &str = "triggers while a ramp runs";
const WHILE_OLDER: &str = "triggers while counting with an older ramp";
const OVERFLOWS: &str = "overflowed samples";
const LONG_WAIT: &str = "sessions where a channel waits for a load for more than 10 ticks";
const LONG_PENDING: &str =
    "sessions where a trigger is pending, loaded by no channel, for more than 10 ticks";
const REPLACING: &str = "triggers that replace one pending for a tick or more";
const SHOWN_LATE: &str = "pending triggers shown by a load by counting";
const SHOWN_BY_DISABLED: &str = "pending triggers shown by loads of disabled channels alone";
const SHOWN_UNHELD: &str = "pending triggers shown while their level no longer holds their event";
const SHOWN_AND_EVENT: &str =
    "ticks whose load by counting shows a pending trigger and whose event triggers anew";
const SHOWN_AND_PENDING: &str =
    "ticks whose load by counting shows a pending trigger and whose event leaves another pending";
const LEVEL_READS: &str = "reads of 0x4210 while a trigger of another level is pending";
const EVENT_READS: &str = "reads of 0x4211 while a trigger of another event is pending";
const SAVED: &str = "saves answered 0";
const SAVED_EXACT: &str = "saves answered 0 into a buffer as long as the lines";
const SAVED_LONGER: &str = "saves answered 0 into a longer buffer";
const SAVED_OTHER: &str = "saves answered 0 of another bench than a reset one";
const NOT_SAVED: &str = "saves answered 10";
const NOT_SAVED_BY_ONE: &str = "saves answered 10 into a buffer one byte too short";
const NO_SAVE: &str = "lines that begin with 15 and are no frame";
const COUNT_READS: &str = "reads of a level's count while a trigger of that level is pending";

/// What sessions of both programs reach with ticks and triggers.
const OF_BOTH: [&str; 15] = [
    LOAD_AND_EVENT,
    WHILE_RUNNING,
    WHILE_OLDER,
    OVERFLOWS,
    LONG_WAIT,
    LONG_PENDING,
    REPLACING,
    SHOWN_LATE,
    SHOWN_BY_DISABLED,
    SHOWN_UNHELD,
    SHOWN_AND_EVENT,
    SHOWN_AND_PENDING,
    LEVEL_READS,
    EVENT_READS,
    COUNT_READS,
];

/// What only sessions of the bench program reach, beside their sines.
const OF_BENCH: [&str; 11] = [
    SHOWN,
    NOT_SHOWN,
    RESETS,
    RESETS_PENDING,
    SAVED,
    SAVED_EXACT,
    SAVED_LONGER,
    SAVED_OTHER,
    NOT_SAVED,
    NOT_SAVED_BY_ONE,
    NO_SAVE,
];

/// The kinds of panel readings, by their number in the answer.
const READINGS: [&str; 6] = [
    "nothing",
    "volts",
    "factor",
    "microseconds",
    "samples",
    "plain",
];

/// A wait for a load that is called long: more than these ticks.
const LONG: u32 = 10;

/// The things that a program's sessions can reach, in the order of printing.
fn things(program: Program) -> Vec<String> {
    let bench = program == Program::Bench;
    let more: &[u8] = &[0x10, 0x11, 0x12, 0x15, 0x16, 0x17, 0x18, 0x1B, 0x1C];
    let mut things: Vec<String> = [0x01, 0x02, 0x03, 0x04]
        .iter()
        .chain(if bench { more } else { &[] })
        .map(|&kind| frame_name(kind))
        .collect();
    things.push(NO_FRAME.to_string());
    things.extend((0..=8).map(|number| number_name("writes", number)));
    things.extend((0..=4).map(|number| number_name("reads", number)));
    if bench {
        things.extend(READINGS.map(reading_name));
        things.extend(OF_BENCH.map(String::from));
        things.extend(profile::OF_BENCH.map(String::from));
        things.extend(edition::OF_BENCH.map(String::from));
        things.extend(stops::of_bench());
    }
    things.extend(OF_BOTH.map(String::from));
    things.extend(sine::OF_BOTH.map(String::from));
    if bench {
        things.extend(sine::OF_BENCH.map(String::from));
    }
    things
}

fn frame_name(kind: u8) -> String {
    format!("frames {kind:02X}")
}

fn number_name(transfers: &str, number: u8) -> String {
    format!("{transfers} answered {number}")
}

fn reading_name(kind: &str) -> String {
    format!("panel readings: {kind}")
}

/// The counts over all sessions played.
pub struct Reach {
    program: Program,
    counts: Vec<(String, u64)>,
}

impl Reach {
    pub fn new(program: Program) -> Self {
        let zero = |thing| (thing, 0);
        Reach {
            program,
            counts: things(program).into_iter().map(zero).collect(),
        }
    }

    fn add(&mut self, thing: &str, more: u64) {
        let count = self.counts.iter_mut().find(|(name, _)| name == thing);
        let (_, count) = count.expect("every thing counted is listed");
        *count += more;
    }

    /// Plays a session on a fresh card of edition 1.
    pub fn play(&mut self, session: &[u8]) {
        let mut player = Player::new(self);
        let lines = session.strip_suffix(b"\n").unwrap_or(session);
        if !session.is_empty() {
            lines
                .split(|&byte| byte == b'\n')
                .for_each(|line| player.line(line));
        }
        player.finish();
    }
}

impl fmt::Display for Reach {
    fn fmt(&self, out: &mut fmt::Formatter) -> fmt::Result {
        for (thing, count) in &self.counts {
            writeln!(out, "{count:>12} {thing}")?;
        }
        Ok(())
    }
}

/// One session as it is played.
struct Player<'a> {
    reach: &'a mut Reach,
    card: Card,
    /// The ticks each channel has waited for its load since the last trigger.
    waited: [u32; CHANNELS],
    /// The channels that took a wave table since their load.
    handed_in: [bool; CHANNELS],
    /// What has set each channel's amplitude.
    origin: [Origin; CHANNELS],
    twin: Twin,
    stops: Stops,
    /// The things that are counted once a session.
    session: BTreeSet<&'static str>,
}

impl<'a> Player<'a> {
    fn new(reach: &'a mut Reach) -> Self {
        Player {
            reach,
            card: Card::fresh(Edition::One),
            waited: [0; CHANNELS],
            handed_in: [false; CHANNELS],
            origin: [Origin::Reset; CHANNELS],
            twin: Twin::new(),
            stops: Stops::default(),
            session: BTreeSet::new(),
        }
    }

    /// Counts what is of the whole session.
    fn finish(self) {
        for thing in self.session {
            self.reach.add(thing, 1);
        }
    }

    fn is_bench(&self) -> bool {
        self.reach.program == Program::Bench
    }

    /// Counts a thing where it is reached.
    fn count(&mut self, thing: &str, reached: bool) {
        if reached {
            self.reach.add(thing, 1);
        }
    }

    /// Counts a thing once a session where it is reached.
    fn once(&mut self, thing: &'static str, reached: bool) {
        if reached {
            self.session.insert(thing);
        }
    }

    /// Ticks are played singly, all other lines through the program.
    fn line(&mut self, line: &[u8]) {
        let frame = self.reach.program.frame(line);
        if self.is_bench() {
            self.edition_line(line, &frame);
        }
        match frame {
            Some(Frame::Line(line::Frame::Ticks(ticks))) => {
                self.reach.add(&frame_name(0x03), 1);
                for _ in 0..ticks {
                    self.tick();
                }
                self.outputs_answered();
            }
            Some(Frame::Line(line::Frame::Event(event))) => {
                self.reach.add(&frame_name(0x04), 1);
                self.event(event);
                self.outputs_answered();
            }
            _ => self.answered(line, frame),
        }
    }

    /// A tick; whether a load by counting came on it.
    fn tick(&mut self) -> bool {
        let before = self.card.looks();
        let pending = self.card.pending();
        self.card.tick();
        self.twin.tick();
        let after = self.card.looks();
        for (channel, after) in after.iter().enumerate() {
            self.count(OVERFLOWS, after.overflows != before[channel].overflows);
            let waits = after.countdown > LOAD_AT;
            self.waited[channel] = if waits { self.waited[channel] + 1 } else { 0 };
        }
        let long = |&ticks: &u32| ticks > LONG;
        self.once(LONG_WAIT, self.waited.iter().any(long));
        self.once(LONG_PENDING, self.waited.iter().all(long));
        if let (Some(trigger), None) = (pending, self.card.pending()) {
            self.shown(trigger, before);
        }
        self.sine_tick(&before, &after);
        self.edition_tick(&after);
        before.iter().any(loads_next)
    }

    /// A load by counting has shown a pending trigger; the looks are those
    /// before its tick.
    fn shown(&mut self, trigger: Trigger, looks: [Look; CHANNELS]) {
        let disabled = looks.iter().all(|look| !loads_next(look) || !look.enabled);
        let held = self.card.level_of(trigger.event) == Some(trigger.level);
        let unheld = trigger.event != NULL_EVENT && !held;
        self.count(SHOWN_LATE, true);
        self.count(SHOWN_BY_DISABLED, disabled);
        self.count(SHOWN_UNHELD, unheld);
    }

    fn event(&mut self, event: u8) {
        let pending = self.card.pending().is_some();
        let loaded = self.tick();
        let shown = pending && self.card.pending().is_none();
        let looks = self.card.looks();
        self.twin.receive(event);
        if self.card.receive(event) {
            self.triggered(looks);
            self.sine_trigger(&looks, true);
            let again = shown && self.card.pending().is_some();
            self.count(LOAD_AND_EVENT, loaded);
            self.count(SHOWN_AND_EVENT, shown);
            self.count(SHOWN_AND_PENDING, again);
        }
    }

    /// A trigger was accepted; the looks are those just before it.
    fn triggered(&mut self, looks: [Look; CHANNELS]) {
        let runs = looks.iter().any(|look| look.ramp_runs);
        let older = looks
            .iter()
            .any(|look| look.ramp_runs && look.countdown > 0);
        let waited = is_pending(looks) && self.waited.iter().all(|&ticks| ticks > 0);
        self.count(WHILE_RUNNING, runs);
        self.count(REPLACING, waited);
        self.count(WHILE_OLDER, older);
        self.waited = [0; CHANNELS];
    }

    /// A line without ticks: the answer tells what it was.
    fn answered(&mut self, line: &[u8], frame: Option<Frame>) {
        let looks = self.card.looks();
        let answer = answer(self.reach.program, &mut self.card, line);
        let twins = self.twin.answer(self.reach.program, line);
        let Some(frame) = frame else {
            return self.no_frame(line);
        };
        self.edition_answered(&frame, &answer, &twins);
        if self.is_bench() {
            self.stop_answered(&frame, &answer);
        }
        self.frame_answered(looks, &frame, &answer);
    }

    fn no_frame(&mut self, line: &[u8]) {
        self.reach.add(NO_FRAME, 1);
        if self.is_bench() {
            self.count(NO_SAVE, line.starts_with(b"15"));
            self.count(profile::NO_CHECK, line.starts_with(b"16"));
        }
    }

    /// The looks are those just before the frame.
    fn frame_answered(&mut self, looks: [Look; CHANNELS], frame: &Frame, answer: &[u8]) {
        let byte = |index: usize| line::field(&answer[2 * index..2 * index + 2]).unwrap() as u8;
        let processed = || line::field(&answer[4..8]).unwrap();
        // An answer's first byte is the frame's with the highest bit set.
        let kind = byte(0) - 0x80;
        self.reach.add(&frame_name(kind), 1);
        match kind {
            0x01 | 0x11 => self.wrote(looks, frame, byte(1), processed()),
            0x02 | 0x12 => {
                self.reach.add(&number_name("reads", byte(1)), 1);
                if let Some(start) = start(frame).filter(|_| processed() > 0) {
                    self.seen(start);
                    self.sine_read(start);
                }
            }
            0x10 => {
                if let Frame::Wave { channel, words } = frame {
                    self.wave_table(&looks, *channel, words, byte(1));
                }
            }
            0x15 => {
                if let Frame::Save { buffer } = frame {
                    self.saved(byte(1), buffer.len());
                }
            }
            0x16 => self.checked(&looks),
            0x17 => self.sine_forget(),
            0x18 => self.was_reset(looks),
            0x1B => self.reach.add([NOT_SHOWN, SHOWN][usize::from(byte(1))], 1),
            0x1C => {
                let reading = READINGS[usize::from(byte(1))];
                self.reach.add(&reading_name(reading), 1);
            }
            _ => {}
        }
    }

    /// A write was answered; the looks are those just before.
    fn wrote(&mut self, looks: [Look; CHANNELS], frame: &Frame, number: u8, processed: u16) {
        self.reach.add(&number_name("writes", number), 1);
        let (start, words) = match frame {
            Frame::Line(line::Frame::Write { start, words }) => (*start, words),
            Frame::Write { start, slice, .. } => (*start, slice),
            _ => return,
        };
        if start == 0x4202 && processed > 0 {
            self.triggered(looks);
            self.sine_trigger(&looks, false);
        }
        let written = Written {
            start,
            words,
            number,
            processed,
        };
        self.sine_write(&looks, written);
    }

    /// The word at this address was read.
    fn seen(&mut self, address: u16) {
        let shown = self.card.shown();
        let Some(pending) = self.card.pending() else {
            return;
        };
        if address == 0x4220 + u16::from(pending.level) {
            self.reach.add(COUNT_READS, 1);
        }
        match address {
            0x4210 if pending.level != shown.level => self.reach.add(LEVEL_READS, 1),
            0x4211 if pending.event != shown.event => self.reach.add(EVENT_READS, 1),
            _ => {}
        }
    }

    /// Whether the settings are other ones than a reset card's.
    fn is_other_bench(&self) -> bool {
        saved::lines(&self.card) != saved::lines(&Card::fresh(Edition::One))
    }

    /// A save into a buffer of this length was answered with the number.
    fn saved(&mut self, number: u8, length: usize) {
        let lines = saved::length();
        let done = number == 0;
        self.count(SAVED, done);
        self.count(SAVED_EXACT, done && length == lines);
        self.count(SAVED_LONGER, done && length > lines);
        self.count(SAVED_OTHER, done && self.is_other_bench());
        self.count(NOT_SAVED, number == 10);
        self.count(NOT_SAVED_BY_ONE, number == 10 && length + 1 == lines);
    }

    /// The card was reset; the looks are those just before.
    fn was_reset(&mut self, looks: [Look; CHANNELS]) {
        let runs = looks.iter().any(|look| look.ramp_runs);
        self.count(RESETS, runs);
        self.count(RESETS_PENDING, is_pending(looks));
        self.sine_reset(&looks);
    }
}

/// Whether the channel loads on the next tick.
fn loads_next(look: &Look) -> bool {
    look.countdown == LOAD_AT + 1
}

/// Whether no channel has loaded since the last trigger.
fn is_pending(looks: [Look; CHANNELS]) -> bool {
    looks.iter().all(|look| look.countdown > LOAD_AT)
}

/// A card's answer to a line.
fn answer(program: Program, card: &mut Card, line: &[u8]) -> Vec<u8> {
    let mut answer = Vec::new();
    program
        .answer(card, line, &mut answer)
        .expect("a vector takes every answer");
    answer
}

/// The start of a read.
fn start(frame: &Frame) -> Option<u16> {
    match *frame {
        Frame::Line(line::Frame::Read { start, .. }) | Frame::Read { start, .. } => Some(start),
        _ => None,
    }
}

#[cfg(test)]
mod tests {
    use super::*;

    /// The things reached by a session, with their counts.
    fn reached(program: Program, session: &str) -> Vec<(String, u64)> {
        let mut reach = Reach::new(program);
        reach.play(session.as_bytes());
        reach.counts.retain(|&(_, count)| count > 0);
        reach.counts
    }

    pub(super) fn count(session: &str, thing: &str) -> u64 {
        let counts = reached(Program::Bench, session);
        counts
            .iter()
            .find(|(name, _)| name == thing)
            .map_or(0, |&(_, count)| count)
    }

    /// Channel 0 runs a long ramp of level 1; level 2 has a delay of 50.
    const RUNNING: &str = "0108010001\n0100800000000A0000\n0108E20032\n010A000001\n\
        01400800100011\n01401000200021\n0142000001\n0142020001\n03000C\n";

    #[test]
    fn every_line_of_a_session_counts_once() {
        let counts = reached(Program::Rampcard, "\n03000A\n04FE\n0108200001\n0208600001");
        let expected = [
            ("frames 01", 1),
            ("frames 02", 1),
            ("frames 03", 1),
            ("frames 04", 1),
            (NO_FRAME, 1),
            ("writes answered 2", 1),
            ("reads answered 0", 1),
        ];
        assert_eq!(counts, expected.map(|(name, n)| (name.to_string(), n)));
        assert_eq!(reached(Program::Bench, ""), []);
        assert_eq!(count("\n", NO_FRAME), 1);
    }

    #[test]
    fn what_only_the_bench_reaches() {
        let looks = "1B000000\n1B000001\n1C0A040001\n1C08200001\n";
        assert_eq!(count(looks, SHOWN), 1);
        assert_eq!(count(looks, NOT_SHOWN), 1);
        assert_eq!(count(looks, "panel readings: volts"), 1);
        assert_eq!(count(looks, "panel readings: nothing"), 1);
        assert_eq!(count(&format!("{RUNNING}18\n18\n"), RESETS), 1);
        assert_eq!(count(&format!("{RUNNING}18\n18\n"), "frames 18"), 2);
    }

    #[test]
    fn saves() {
        let session = "15000094BE\n15000094BF\n15000094C0\n1500000000\n1500010001\n15\n1600\n";
        for (before, other) in [("", 0), ("0108200001\n010A040001\n", 0), (RUNNING, 2)] {
            let session = format!("{before}{session}");
            for (thing, times) in [
                ("frames 15", 4),
                (SAVED, 2),
                (SAVED_EXACT, 1),
                (SAVED_LONGER, 1),
                (SAVED_OTHER, other),
                (NOT_SAVED, 2),
                (NOT_SAVED_BY_ONE, 1),
                (NO_SAVE, 2),
                (NO_FRAME, 3),
            ] {
                assert_eq!(count(&session, thing), times, "{thing}");
            }
        }
    }

    #[test]
    fn triggers_and_loads() {
        let again = format!("{RUNNING}0142020002\n030001\n0142020002\n");
        assert_eq!(count(&again, WHILE_RUNNING), 2);
        assert_eq!(count(&again, WHILE_OLDER), 1);
        // The load by counting comes on tick 40 after the trigger of level 2.
        for (ticks, together) in [("26", 0), ("27", 1), ("28", 0)] {
            let session = format!("{RUNNING}0420\n0300{ticks}\n0410\n");
            assert_eq!(count(&session, LOAD_AND_EVENT), together, "{ticks}");
        }
    }

    /// Levels 1 and 2, events 0x10 and 0x20: channel 0 loads on tick 40 and the
    /// others on tick 50. Every other level loads at once.
    const LATE: &str = "0108E100320032\n0118E1003C003C\n0128E1003C003C\n0138E1003C003C\n\
        0140080010\n0140100020\n0140180030\n0142000001\n";

    #[test]
    fn pending_triggers_shown() {
        for (frames, late, disabled, unheld) in [
            ("0410\n030027\n", 0, 0, 0),
            ("0410\n030028\n", 1, 1, 0),
            ("0142020001\n030100\n", 1, 1, 0),
            ("0430\n030100\n", 0, 0, 0),
            ("010A000001\n0410\n030028\n", 1, 0, 0),
            ("0410\n030027\n0142010001\n030001\n", 1, 1, 1),
            ("0142020001\n0142010001\n030028\n", 1, 1, 0),
        ] {
            let session = format!("{LATE}{frames}");
            assert_eq!(count(&session, SHOWN_LATE), late, "{frames}");
            assert_eq!(count(&session, SHOWN_BY_DISABLED), disabled, "{frames}");
            assert_eq!(count(&session, SHOWN_UNHELD), unheld, "{frames}");
        }
    }

    #[test]
    fn pending_triggers_and_events() {
        for (frames, shown, pending, replaced) in [
            ("0410\n030026\n0420\n", 0, 0, 1),
            ("0410\n030027\n0420\n", 1, 1, 0),
            ("0410\n030027\n0430\n", 1, 0, 0),
            ("0410\n030028\n0420\n", 0, 0, 0),
            ("0410\n030027\n0440\n", 0, 0, 0),
            ("0410\n0142020002\n", 0, 0, 0),
        ] {
            let session = format!("{LATE}{frames}");
            assert_eq!(count(&session, SHOWN_AND_EVENT), shown, "{frames}");
            assert_eq!(count(&session, SHOWN_AND_PENDING), pending, "{frames}");
            assert_eq!(count(&session, REPLACING), replaced, "{frames}");
        }
    }

    #[test]
    fn reads_and_resets_while_a_trigger_is_pending() {
        let reads = "0242100002\n124211000100025555\n0242100000\n0242210001\n0142210000\n";
        for (frames, level, event, counts) in [
            ("", 0, 0, 0),
            ("0410\n", 1, 1, 1),
            ("0410\n030028\n", 0, 0, 0),
            ("0142020001\n", 1, 0, 1),
            ("0142020002\n", 1, 0, 0),
            ("0410\n030028\n0142020001\n", 0, 1, 1),
        ] {
            let session = format!("{LATE}{frames}{reads}");
            assert_eq!(count(&session, LEVEL_READS), level, "{frames}");
            assert_eq!(count(&session, EVENT_READS), event, "{frames}");
            assert_eq!(count(&session, COUNT_READS), counts, "{frames}");
        }
        for (ticks, resets) in [("27", 1), ("28", 0)] {
            let session = format!("{LATE}0410\n0300{ticks}\n18\n18\n");
            assert_eq!(count(&session, RESETS_PENDING), resets, "{ticks}");
        }
    }

    #[test]
    fn waits_and_overflows() {
        assert_eq!(count(RUNNING, LONG_WAIT), 0);
        let session = format!("{RUNNING}0142020002\n03000A\n");
        assert_eq!(count(&session, LONG_WAIT), 0);
        let session = format!("{RUNNING}0142020002\n03000B\n");
        assert_eq!(count(&session, LONG_WAIT), 1);
        assert_eq!(count(&session, LONG_PENDING), 0);
        let session = format!("0118E20032\n0128E20032\n0138E20032\n{session}");
        assert_eq!(count(&session, LONG_PENDING), 1);
        assert_eq!(count(&session, REPLACING), 0);
        assert_eq!(count(&format!("{session}0142020001\n"), REPLACING), 1);
        let full = "0108610200\n0108410001\n0108010001\n0100807FFF00037FFF0000\n010A000001\n";
        let session = format!("{full}0142020001\n030064\n");
        assert_eq!(count(&session, OVERFLOWS), 4);
    }
}
