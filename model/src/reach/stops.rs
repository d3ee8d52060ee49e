//! What sessions reach of the address at which a transfer stopped.

use super::{number_name, Player};
use crate::bench::Frame;
use crate::line::{self, field, MAX_WORDS};
use crate::map::Place;

const DONE_TO_END: &str = "frames 11 answered 0 whose address lies behind their region";
const READ_TO_END: &str = "frames 12 answered 0 whose address lies behind their region";
const LONG: &str = "frames 11 answered 4 to 8 with more than 64 words done";
const BEHIND_ALL: &str = "frames 11 and 12 with words done whose address is 4240";
const LAST: &str = "frames 11 and 12 whose address is FFFF";
const MENDED: &str = "writes answered 0 that go on behind words done";
const WITH_MENDED: &str = "sessions with a write answered 0 that goes on behind words done";
const READ_ON: &str = "reads that go on from a frame 12 answered 4";

/// What sessions of the bench program reach.
pub(super) fn of_bench() -> Vec<String> {
    let mut things: Vec<String> = Vec::new();
    things.extend((0..=8).map(|number| number_name("frames 11", number)));
    things.extend((0..=4).map(|number| number_name("frames 12", number)));
    // Fixed words come first in their region, and A04 is one of one word.
    things.extend([4, 6, 7].map(with_words_done));
    things.extend((4..=8).map(goes_on));
    let others = [
        LONG,
        MENDED,
        WITH_MENDED,
        READ_ON,
        DONE_TO_END,
        READ_TO_END,
        BEHIND_ALL,
        LAST,
    ];
    things.extend(others.map(String::from));
    things
}

fn with_words_done(number: u8) -> String {
    format!("{} with words done", number_name("frames 11", number))
}

fn goes_on(number: u8) -> String {
    number_name("writes that go on from a frame 11", number)
}

/// Where a frame 11 or 12 started and stopped.
#[derive(Clone, Copy)]
struct Stop {
    start: u16,
    number: u8,
    address: u16,
}

impl Stop {
    /// What the answer says of it.
    fn of(start: u16, answer: &[u8]) -> Stop {
        Stop {
            start,
            number: number_of(answer),
            address: field(&answer[8..12]).expect("an address has four digits"),
        }
    }

    /// Whether a word was refused, and not the whole transfer.
    fn at_a_word(&self) -> bool {
        self.number >= 4
    }

    /// The words from the start to the address.
    fn words_done(&self) -> usize {
        usize::from(self.address - self.start)
    }

    /// Whether every word was done, the last one of the region among them.
    fn is_done_to_the_end(&self) -> bool {
        let [start, next] = [self.start, self.address].map(Place::find);
        let inside = |start: Place| next.is_some_and(|next| next.shares_region(start));
        self.number == 0 && !start.is_some_and(inside)
    }
}

/// The refused words that the session may go on from.
#[derive(Default)]
pub(super) struct Stops {
    /// The last write's, if that was a frame 11.
    write: Option<Stop>,
    /// The last read's, if that was a frame 12.
    read: Option<Stop>,
}

fn number_of(answer: &[u8]) -> u8 {
    field(&answer[2..4]).expect("a number has two digits") as u8
}

impl Player<'_> {
    /// A frame without ticks was answered.
    pub(super) fn stop_answered(&mut self, frame: &Frame, answer: &[u8]) {
        match *frame {
            Frame::Line(line::Frame::Write { start, .. }) => self.writes_on(start, answer),
            Frame::Line(line::Frame::Read { start, .. }) => self.reads_on(start),
            Frame::Write { start, .. } => {
                self.writes_on(start, answer);
                self.write_stopped(Stop::of(start, answer));
            }
            Frame::Read { start, .. } => {
                self.reads_on(start);
                self.read_stopped(Stop::of(start, answer));
            }
            Frame::Reset | Frame::Fresh(_) => self.stops = Stops::default(),
            _ => {}
        }
    }

    /// A frame 11 was answered.
    fn write_stopped(&mut self, stop: Stop) {
        let refused = stop.at_a_word();
        self.stopped("frames 11", stop);
        self.count(
            &with_words_done(stop.number),
            refused && stop.words_done() > 0,
        );
        self.count(LONG, refused && stop.words_done() > MAX_WORDS);
        self.count(DONE_TO_END, stop.is_done_to_the_end());
        self.stops.write = Some(stop).filter(Stop::at_a_word);
    }

    /// A frame 12 was answered.
    fn read_stopped(&mut self, stop: Stop) {
        self.stopped("frames 12", stop);
        self.count(READ_TO_END, stop.is_done_to_the_end());
        self.stops.read = Some(stop).filter(Stop::at_a_word);
    }

    fn stopped(&mut self, frames: &str, stop: Stop) {
        self.reach.add(&number_name(frames, stop.number), 1);
        self.count(BEHIND_ALL, stop.address == 0x4240 && stop.words_done() > 0);
        self.count(LAST, stop.address == 0xFFFF);
    }

    /// A write from this start was answered: it may go on from the last one.
    fn writes_on(&mut self, start: u16, answer: &[u8]) {
        let Some(stop) = self.stops.write.take().filter(|stop| stop.address == start) else {
            return;
        };
        self.reach.add(&goes_on(stop.number), 1);
        let mended = stop.words_done() > 0 && number_of(answer) == 0;
        self.count(MENDED, mended);
        self.once(WITH_MENDED, mended);
    }

    /// A read from this start: it may go on from the last one.
    fn reads_on(&mut self, start: u16) {
        let last = self.stops.read.take();
        self.count(READ_ON, last.is_some_and(|stop| stop.address == start));
    }
}

#[cfg(test)]
mod tests {
    use super::super::tests::count;
    use super::*;

    /// The things of the list that a session reaches, with their counts.
    fn reached(session: &str) -> Vec<(String, u64)> {
        let counts = of_bench().into_iter().map(|thing| {
            let count = count(session, &thing);
            (thing, count)
        });
        counts.filter(|&(_, count)| count > 0).collect()
    }

    fn check(session: &str, expected: &[(&str, u64)]) {
        let expected: Vec<_> = expected
            .iter()
            .map(|&(thing, count)| (thing.to_string(), count))
            .collect();
        assert_eq!(reached(session), expected, "{session}");
    }

    #[test]
    fn frames_of_the_line_program_count_for_nothing() {
        check("010081000A\n010801000F0010\n01FFFF0001\n", &[]);
        check("02423F0002\n0242400001\n02FFFF0001\n", &[]);
    }

    #[test]
    fn numbers_of_frames_11() {
        for (line, number) in [
            ("11080100010001", 0),
            ("11080100020001", 1),
            ("11082000010001", 2),
            ("11421000010001", 3),
            ("11000000010001", 5),
            ("11080100010010", 6),
        ] {
            check(line, &[(&number_name("frames 11", number), 1)]);
        }
        let four = number_name("frames 11", 4);
        let done = with_words_done(4);
        check("11081F000200010002", &[(&four, 1), (&done, 1)]);
        check(
            "11081F000100010002",
            &[("frames 11 answered 0", 1), (DONE_TO_END, 1)],
        );
    }

    #[test]
    fn numbers_of_frames_12() {
        for (line, number) in [
            ("120801000100010000", 0),
            ("120801000200010000", 1),
            ("120820000100010000", 2),
            ("124202000100010000", 3),
            ("12081F000200020000", 4),
        ] {
            check(line, &[(&number_name("frames 12", number), 1)]);
        }
        check(
            "120801001F001F0000",
            &[("frames 12 answered 0", 1), (READ_TO_END, 1)],
        );
    }

    #[test]
    fn addresses_at_the_ends() {
        for (line, number) in [("11423F00010001", 0), ("11423F000200010001", 4)] {
            assert_eq!(count(line, BEHIND_ALL), 1, "{line}");
            assert_eq!(count(line, &number_name("frames 11", number)), 1, "{line}");
        }
        let reads = "12423F000100010000\n12423E000300030000\n124240000100010000\n";
        assert_eq!((count(reads, BEHIND_ALL), count(reads, LAST)), (2, 0));
        let last = "11FFFF00010001\n12FFFF000000010000\n";
        assert_eq!((count(last, BEHIND_ALL), count(last, LAST)), (0, 2));
    }

    /// The 65th word is not accepted, or the 66th.
    #[test]
    fn long_writes() {
        for (before, long) in [(64, 0), (65, 1)] {
            let words = "00FE".repeat(before);
            let session = format!("1140000042{words}01000000");
            assert_eq!(count(&session, &with_words_done(6)), 1);
            assert_eq!(count(&session, LONG), long, "{before}");
        }
    }

    /// A write that stops at 0x0803, and what follows it.
    #[test]
    fn writes_that_go_on() {
        let six = goes_on(6);
        for (after, on, mended) in [
            ("11080300010003\n", 1, 1),
            ("0108030003\n", 1, 1),
            ("11080300010010\n", 1, 0),
            ("11080300010010\n11080300010003\n", 2, 0),
            ("03000A\n120801000200020000\n0108030003\n", 1, 1),
            ("11080200010003\n11080300010003\n", 0, 0),
            ("0108010001\n11080300010003\n", 0, 0),
            ("18\n11080300010003\n", 0, 0),
            ("1702\n11080300010003\n", 0, 0),
        ] {
            let session = format!("1108010003000100020010\n{after}");
            let counts = [&six, MENDED].map(|thing| count(&session, thing));
            assert_eq!(counts, [on, mended], "{after}");
            assert_eq!(count(&session, WITH_MENDED), mended, "{after}");
        }
        // No address was given, or the write began there.
        let given = "010801000100020010\n0108030003\n";
        assert_eq!(count(given, &six), 0);
        let first = "11080100010010\n11080100010001\n";
        assert_eq!((count(first, &six), count(first, MENDED)), (1, 0));
    }

    #[test]
    fn reads_that_go_on() {
        for (after, on) in [
            ("0208200001\n", 1),
            ("120820000100010000\n", 1),
            ("0108010001\n0208200001\n", 1),
            ("0208000001\n0208200001\n", 0),
            ("18\n0208200001\n", 0),
        ] {
            let session = format!("12081F000200020000\n{after}");
            assert_eq!(count(&session, READ_ON), on, "{after}");
        }
    }
}
