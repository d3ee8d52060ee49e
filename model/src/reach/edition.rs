//! What sessions reach of the two editions. Beside the session's card a twin
//! of edition 1 does the same: they differ where the edition makes them.

use super::{answer, is_pending, Player};
use crate::bench::Frame;
use crate::card::{Card, CHANNELS};
use crate::channel::{Given, Look};
use crate::edition::{bound, Edition, Fraction};
use crate::line;
use crate::program::Program;
use crate::sine::in_range;

const BEGIN_TWO: &str = "sessions that begin with a fresh card of edition 2";
const BEGIN_ONE: &str = "sessions that begin with a fresh card of edition 1";
const BEGIN_NONE: &str = "sessions that begin on the card of the start";
const WITH_OTHER: &str = "sessions with a sample on edition 2 whose sum is not edition 1's";
const LESS: &str = "samples on edition 2 whose sum is less than edition 1's";
const GREATER: &str = "samples on edition 2 whose sum is greater than edition 1's";
const LESS_BY_BOUND: &str = "samples on edition 2 whose sum is less by all of a bound above 1";
const GREATER_BY_BOUND: &str =
    "samples on edition 2 whose sum is greater by all of a bound above 1";
const ALIKE: &str = "samples on edition 2 between whole f whose sum is edition 1's";
const FACTOR_ONE: &str = "samples on edition 2 between whole f with factor 0x0100";
const ONE_OUT: &str = "sums on edition 2 in range that are out of range on edition 1";
const TWO_OUT: &str = "sums on edition 2 out of range that are in range on edition 1";
const OUTPUTS: &str = "samples on edition 2 with another output than on edition 1";
const SINES: &str = "samples in sine mode on edition 2 with another output than on edition 1";
const SHOWN: &str = "such samples whose output an answer to ticks shows";
const READS: &str = "reads on edition 2 answered otherwise than on edition 1";
const RESETS: &str = "resets on edition 2 behind which a sum is not edition 1's";
const FRESH_ONE: &str = "fresh cards of edition 1 in mid-session";
const FRESH_TWO: &str = "fresh cards of edition 2 in mid-session";
const FRESH_OTHER: &str = "fresh cards of another edition than the one before";
const FRESH_RUNS: &str = "fresh cards while a ramp runs";
const FRESH_FREE: &str = "fresh cards in free run";
const FRESH_PENDING: &str = "fresh cards while a trigger is pending";
const PASSES: &str = "checks on edition 2 that pass, on another bench than a reset one";
const BREAKS: &str = "checks on edition 2 that break";
const SAVED: &str = "saves on edition 2 answered 0, of another bench than a reset one";
const NO_FRESH: &str = "lines that begin with 17 and are no frame";

/// What sessions of the bench program reach.
pub(super) const OF_BENCH: [&str; 27] = [
    BEGIN_TWO,
    BEGIN_ONE,
    BEGIN_NONE,
    WITH_OTHER,
    LESS,
    GREATER,
    LESS_BY_BOUND,
    GREATER_BY_BOUND,
    ALIKE,
    FACTOR_ONE,
    ONE_OUT,
    TWO_OUT,
    OUTPUTS,
    SINES,
    SHOWN,
    READS,
    RESETS,
    FRESH_ONE,
    FRESH_TWO,
    FRESH_OTHER,
    FRESH_RUNS,
    FRESH_FREE,
    FRESH_PENDING,
    PASSES,
    BREAKS,
    SAVED,
    NO_FRESH,
];

/// The twin, and what is kept in mind beside it.
pub(super) struct Twin {
    card: Card,
    /// Whether no line has come yet.
    at_begin: bool,
    /// Whether a sample's other output was in no answer yet.
    unseen: [bool; CHANNELS],
    /// Whether a reset came, and since then no sum that is not the twin's.
    after_reset: bool,
}

impl Twin {
    pub(super) fn new() -> Self {
        Twin {
            card: Card::fresh(Edition::One),
            at_begin: true,
            unseen: [false; CHANNELS],
            after_reset: false,
        }
    }

    pub(super) fn tick(&mut self) {
        self.card.tick();
    }

    pub(super) fn receive(&mut self, event: u8) {
        self.card.receive(event);
    }

    /// The twin's answer to a line without ticks; it stays of edition 1.
    pub(super) fn answer(&mut self, program: Program, line: &[u8]) -> Vec<u8> {
        let answer = answer(program, &mut self.card, line);
        if self.card.edition() == Edition::Two {
            self.card = Card::fresh(Edition::One);
        }
        answer
    }
}

/// Samples.
impl Player<'_> {
    fn is_two(&self) -> bool {
        self.card.edition() == Edition::Two
    }

    /// What a tick has done on a card of edition 2.
    pub(super) fn edition_tick(&mut self, after: &[Look; CHANNELS]) {
        if !self.is_two() {
            return;
        }
        for (channel, look) in after.iter().enumerate() {
            let Some(given) = look.given else {
                continue;
            };
            if let Some(f) = given.f {
                self.summed(look, f);
            }
            self.put_out(channel, given);
        }
    }

    /// A ramp gave a sample with this f.
    fn summed(&mut self, look: &Look, f: Fraction) {
        let one = look.ramp.sum(Edition::One, f);
        let two = look.ramp.sum(Edition::Two, f);
        let all = one - two == bound(look.ramp.scale) && (one - two).abs() > 1;
        self.count(LESS, two < one);
        self.count(GREATER, two > one);
        self.count(LESS_BY_BOUND, two < one && all);
        self.count(GREATER_BY_BOUND, two > one && all);
        let factor_one = look.ramp.scale == 0x0100;
        self.count(ALIKE, !f.is_whole() && !factor_one && one == two);
        self.count(FACTOR_ONE, !f.is_whole() && factor_one);
        let [one_fits, two_fits] = [one, two].map(|sum| in_range(sum).is_some());
        self.count(ONE_OUT, !one_fits && two_fits);
        self.count(TWO_OUT, one_fits && !two_fits);
        if one != two {
            self.once(WITH_OTHER, true);
            self.count(RESETS, self.twin.after_reset);
            self.twin.after_reset = false;
        }
    }

    /// A sample was put out.
    fn put_out(&mut self, channel: usize, given: Given) {
        let other = self.has_other_output(channel);
        self.count(OUTPUTS, other);
        self.count(SINES, other && given.sine.is_some());
        self.twin.unseen[channel] = other;
    }

    fn has_other_output(&self, channel: usize) -> bool {
        self.card.outputs()[channel] != self.twin.card.outputs()[channel]
    }

    /// The outputs were answered; each sample counts once.
    pub(super) fn outputs_answered(&mut self) {
        for channel in 0..CHANNELS {
            let shown = self.twin.unseen[channel] && self.has_other_output(channel);
            self.count(SHOWN, shown);
        }
        self.twin.unseen = [false; CHANNELS];
    }
}

/// Lines.
impl Player<'_> {
    /// A line of the bench program comes; the card is still as it was.
    pub(super) fn edition_line(&mut self, line: &[u8], frame: &Option<Frame>) {
        let first = std::mem::take(&mut self.twin.at_begin);
        let begins = match frame {
            Some(Frame::Fresh(Edition::Two)) => BEGIN_TWO,
            Some(Frame::Fresh(Edition::One)) => BEGIN_ONE,
            _ => BEGIN_NONE,
        };
        self.once(begins, first);
        match frame {
            Some(Frame::Fresh(edition)) => self.fresh_card_comes(*edition, first),
            Some(Frame::Reset) => self.twin.after_reset = self.is_two(),
            None => self.count(NO_FRESH, line.starts_with(b"17")),
            _ => {}
        }
    }

    /// A fresh card of the edition is to replace the card.
    fn fresh_card_comes(&mut self, edition: Edition, first: bool) {
        let looks = self.card.looks();
        self.count(FRESH_ONE, !first && edition == Edition::One);
        self.count(FRESH_TWO, !first && edition == Edition::Two);
        self.count(FRESH_OTHER, !first && edition != self.card.edition());
        self.count(FRESH_RUNS, looks.iter().any(|look| look.ramp_runs));
        self.count(FRESH_FREE, looks.iter().any(|look| look.free_runs));
        self.count(FRESH_PENDING, is_pending(looks));
        self.twin.after_reset = false;
    }

    /// A frame without ticks was answered, by the twin perhaps otherwise.
    pub(super) fn edition_answered(&mut self, frame: &Frame, answer: &[u8], twins: &[u8]) {
        if !self.is_two() {
            return;
        }
        match frame {
            Frame::Line(line::Frame::Read { .. }) | Frame::Read { .. } => {
                self.count(READS, answer != twins);
            }
            Frame::Check => {
                let passes = answer == b"9600\n";
                self.count(PASSES, passes && self.is_other_bench());
                self.count(BREAKS, !passes);
            }
            Frame::Save { .. } => {
                let saved = answer.starts_with(b"9500");
                self.count(SAVED, saved && self.is_other_bench());
            }
            _ => {}
        }
    }
}

#[cfg(test)]
mod tests {
    use super::super::tests::count;
    use super::*;

    /// Level 1 of channel 0 plays (0, 3) (10, 0) with this factor; all its
    /// samples in answers of their own.
    fn ramp(scale: &str) -> String {
        format!(
            "0108010001\n0108410001\n010861{scale}\n01008000000003000A0000\n010A000001\n\
            0142020001\n03000A\n03000A\n03000A\n03000A\n"
        )
    }

    /// The things of the list that a session reaches, with their counts.
    fn reached(session: &str) -> Vec<(&'static str, u64)> {
        let counts = OF_BENCH.map(|thing| (thing, count(session, thing)));
        counts.into_iter().filter(|&(_, count)| count > 0).collect()
    }

    #[test]
    fn the_first_lines() {
        assert_eq!(reached(""), []);
        assert_eq!(reached("1702\n1702\n")[0], (BEGIN_TWO, 1));
        assert_eq!(reached("1701\n1702\n")[0], (BEGIN_ONE, 1));
        assert_eq!(reached("18\n1702\n")[0], (BEGIN_NONE, 1));
        let none = [(BEGIN_NONE, 1), (NO_FRESH, 3)];
        assert_eq!(reached("17\n1703\n170201\n1600\n"), none);
    }

    #[test]
    fn samples_of_edition_1_count_for_nothing() {
        assert_eq!(reached(&ramp("0200")), [(BEGIN_NONE, 1)]);
        let session = format!("1701\n{}020A040001\n16\n18\n", ramp("0200"));
        assert_eq!(reached(&session), [(BEGIN_ONE, 1)]);
    }

    #[test]
    fn samples() {
        let begin = [(BEGIN_TWO, 1), (WITH_OTHER, 1)];
        let outputs = |times| [(OUTPUTS, times), (SHOWN, times)];
        let all = |own: &[(&'static str, u64)], times| [&begin[..], own, &outputs(times)].concat();
        let session = |scale| format!("1702\n{}", ramp(scale));
        let less = all(&[(LESS, 1), (ALIKE, 1)], 1);
        assert_eq!(reached(&session("0200")), less);
        let greater = all(&[(GREATER, 2), (GREATER_BY_BOUND, 1)], 2);
        assert_eq!(reached(&session("FE00")), greater);
        // A bound of 1 is no bound above 1.
        assert_eq!(reached(&session("FF00")), all(&[(GREATER, 2)], 2));
        let one = [(BEGIN_TWO, 1), (FACTOR_ONE, 2)];
        assert_eq!(reached(&session("0100")), one);
        let far = session("0103").replace("00000003000A0000", "0056008200550000");
        let bound = all(&[(LESS, 3), (LESS_BY_BOUND, 1)], 3);
        assert_eq!(reached(&far), bound);
    }

    #[test]
    fn sums_at_the_border() {
        for (offset, values, things) in [
            ("0001", ["3FFF", "4000"], [(ONE_OUT, 1), (TWO_OUT, 0)]),
            ("FFFF", ["C000", "C001"], [(ONE_OUT, 0), (TWO_OUT, 1)]),
            ("0000", ["3FFE", "3FFF"], [(ONE_OUT, 0), (TWO_OUT, 0)]),
        ] {
            let table = format!("{}0003{}0000", values[0], values[1]);
            let ramp = ramp("0200").replace("00000003000A0000", &table);
            let session = format!("1702\n0108A1{offset}\n0108810001\n{ramp}");
            for (thing, times) in things {
                assert_eq!(count(&session, thing), times, "{thing} {offset}");
            }
        }
    }

    /// Each sample once, and only if its output is still there.
    #[test]
    fn outputs_in_answers() {
        let start = ramp("0200").replace("03000A\n", "");
        for (ticks, shown) in [
            ("03001D\n", 0),
            ("03001E\n030001\n", 1),
            ("03001D\n04FE\n", 1),
            ("030028\n", 0),
            ("030027\n030001\n", 1),
        ] {
            let session = format!("1702\n{start}{ticks}");
            assert_eq!(count(&session, SHOWN), shown, "{ticks}");
        }
        for (reads, times) in [("0A04", 1), ("0A33", 0), ("0A39", 0)] {
            let session = format!("1702\n{start}03001E\n02{reads}0001\n12{reads}000100015555\n");
            assert_eq!(count(&session, READS), 2 * times, "{reads}");
        }
    }

    #[test]
    fn sines() {
        let wave = format!("1000{}\n", "4000".repeat(1024));
        let session = format!("1702\n{wave}010A010001\n{}", ramp("0200"));
        assert_eq!((count(&session, SINES), count(&session, OUTPUTS)), (1, 1));
        let plain = session.replace("010A010001", "010A010000");
        assert_eq!((count(&plain, SINES), count(&plain, OUTPUTS)), (0, 1));
    }

    #[test]
    fn resets_behind_which_the_edition_shows() {
        let ramp = ramp("0200");
        for (between, times) in [
            ("18\n", 1),
            ("18\n18\n", 1),
            ("03000A\n", 0),
            ("18\n1702\n", 0),
            ("1701\n18\n", 0),
            ("18\n1701\n", 0),
            ("1702\n18\n", 1),
        ] {
            let session = format!("1702\n{ramp}{between}{ramp}");
            assert_eq!(count(&session, RESETS), times, "{between}");
        }
        assert_eq!(count(&format!("1702\n18\n{ramp}{ramp}"), RESETS), 1);
        assert_eq!(count(&format!("1702\n{ramp}18\n"), RESETS), 0);
    }

    #[test]
    fn fresh_cards() {
        let [one, two, other] = [FRESH_ONE, FRESH_TWO, FRESH_OTHER];
        for (session, things) in [
            ("1702\n", [(one, 0), (two, 0), (other, 0)]),
            ("1702\n1702\n1702\n", [(one, 0), (two, 2), (other, 0)]),
            ("16\n1702\n1701\n1701\n", [(one, 2), (two, 1), (other, 2)]),
            ("1702\n18\n1701\n", [(one, 1), (two, 0), (other, 1)]),
        ] {
            for (thing, times) in things {
                assert_eq!(count(session, thing), times, "{thing}: {session}");
            }
        }
        let ramp = ramp("0200");
        let running = ramp.replace("03000A\n03000A\n03000A\n", "");
        assert_eq!(count(&format!("{running}1702\n1702\n"), FRESH_RUNS), 1);
        assert_eq!(count(&format!("{ramp}1702\n"), FRESH_RUNS), 0);
        let free = format!("010A010005\n{ramp}1702\n1702\n");
        assert_eq!(count(&free, FRESH_FREE), 1);
        let delays = "0108E20032\n0118E20032\n0128E20032\n0138E20032\n";
        let pending = format!("{delays}0142020002\n1702\n1702\n");
        assert_eq!(count(&pending, FRESH_PENDING), 1);
    }

    #[test]
    fn checks_and_saves() {
        let looks = "16\n15000094BF\n15000094BE\n";
        let breaks = "0108A17FFF\n0108810001\n";
        for (session, things) in [
            (format!("1702\n{looks}"), [0, 0, 0]),
            (format!("1702\n{}{looks}", ramp("0200")), [1, 0, 1]),
            (format!("1702\n{}{breaks}{looks}", ramp("0200")), [0, 1, 1]),
            (format!("1701\n{}{breaks}{looks}", ramp("0200")), [0, 0, 0]),
        ] {
            let counts = [PASSES, BREAKS, SAVED].map(|thing| count(&session, thing));
            assert_eq!(counts, things, "{session}");
        }
    }
}
