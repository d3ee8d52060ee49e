//! What sessions reach of the profile.

use super::Player;
use crate::card::{Card, CHANNELS};
use crate::channel::{Look, Ramp, LEVELS};
use crate::edition::Fraction;
use crate::profile::{self, Break};
use crate::sine::{signed, Mode};

const PASSES: &str = "checks that pass";
const PASSES_OTHER: &str = "checks that pass on another bench than a reset one";
const PASSES_PAST: &str = "checks that pass where a point past a ramp's end is out of range";
const PASSES_EDGE: &str = "checks that pass with a sum of 32767 or -32768";
const PASSES_BY_OFFSET: &str = "checks that pass where only an offset brings a sum into range";
const FIRST: &str = "checks that break at channel 0";
const LATER: &str = "checks that break at a later channel";
const LATER_LEVEL: &str = "checks that break at a level other than 0";
const LOWER_AFTER: &str = "checks that break where a later channel does at a lower level";
const PAST: &str = "checks that break behind a ramp out of range past its end alone";
const AT_END: &str = "checks that break at the end of a ramp of more points alone";
const AT_63: &str = "checks that break at point 63 without an end mark alone";
const BY_OFFSET: &str = "checks that break only because of the offset";
const BY_ONE: &str = "checks that break by a sum of 32768 or -32769";
const DISABLED: &str = "checks that break on a disabled channel";
const UNHELD: &str = "checks that break at a level without an event";
const IN_SINE: &str = "checks that break on a channel in sine mode";
const WHILE_RUNNING: &str = "checks while a ramp runs";
pub(super) const NO_CHECK: &str = "lines that begin with 16 and are no frame";

/// What sessions of the bench program reach.
pub(super) const OF_BENCH: [&str; 19] = [
    PASSES,
    PASSES_OTHER,
    PASSES_PAST,
    PASSES_EDGE,
    PASSES_BY_OFFSET,
    FIRST,
    LATER,
    LATER_LEVEL,
    LOWER_AFTER,
    PAST,
    AT_END,
    AT_63,
    BY_OFFSET,
    BY_ONE,
    DISABLED,
    UNHELD,
    IN_SINE,
    WHILE_RUNNING,
    NO_CHECK,
];

/// The sums of a ramp's points.
struct Sums {
    /// Up to the end, and past it.
    own: Vec<i64>,
    past: Vec<i64>,
    offset: i64,
    /// Whether the end has the step of 0.
    marked: bool,
}

fn is_out(sum: &i64) -> bool {
    !(-32_768..=32_767).contains(sum)
}

impl Sums {
    fn of(card: &Card, channel: usize, level: usize) -> Sums {
        let ramp: Ramp = card.ramp(channel, level);
        let table = card.table_of(channel, ramp);
        let end = table.chunks_exact(2).position(|point| point[1] == 0);
        let f = |point: &[u16]| Fraction::whole(signed(point[0]));
        let sum = |point: &[u16]| ramp.sum(card.edition(), f(point));
        let mut own: Vec<i64> = table.chunks_exact(2).map(sum).collect();
        let past = own.split_off(end.unwrap_or(63) + 1);
        Sums {
            own,
            past,
            offset: signed(ramp.offset),
            marked: end.is_some(),
        }
    }

    /// The points up to the end that are out of range.
    fn out(&self) -> Vec<usize> {
        let points = self.own.iter().enumerate();
        points
            .filter(|(_, sum)| is_out(sum))
            .map(|(point, _)| point)
            .collect()
    }

    fn breaks(&self) -> bool {
        self.own.iter().any(is_out)
    }

    fn is_out_past_the_end(&self) -> bool {
        self.past.iter().any(is_out)
    }

    /// Whether a sum up to the end is out of range before the offset is added.
    fn is_out_before_the_offset(&self) -> bool {
        self.own.iter().any(|sum| is_out(&(sum - self.offset)))
    }

    fn touches_a_border(&self) -> bool {
        self.own.iter().any(|sum| [-32_768, 32_767].contains(sum))
    }
}

impl Player<'_> {
    /// The bench was checked.
    pub(super) fn checked(&mut self, looks: &[Look; CHANNELS]) {
        self.count(WHILE_RUNNING, looks.iter().any(|look| look.ramp_runs));
        match profile::check(&self.card) {
            None => self.passed(),
            Some(place) => self.broke(place, looks),
        }
    }

    /// The sums of all levels of all channels, in the order of the check.
    fn all_sums(&self) -> Vec<Sums> {
        let places = (0..CHANNELS * LEVELS).map(|place| (place / LEVELS, place % LEVELS));
        places
            .map(|(channel, level)| Sums::of(&self.card, channel, level))
            .collect()
    }

    fn passed(&mut self) {
        let all = self.all_sums();
        self.count(PASSES, true);
        self.count(PASSES_OTHER, self.is_other_bench());
        self.count(PASSES_PAST, all.iter().any(Sums::is_out_past_the_end));
        self.count(PASSES_EDGE, all.iter().any(Sums::touches_a_border));
        self.count(
            PASSES_BY_OFFSET,
            all.iter().any(Sums::is_out_before_the_offset),
        );
    }

    fn broke(&mut self, place: Break, looks: &[Look; CHANNELS]) {
        let Break { channel, level, .. } = place;
        self.count(FIRST, channel == 0);
        self.count(LATER, channel > 0);
        self.count(LATER_LEVEL, level > 0);
        let all = self.all_sums();
        let (before, after) = all.split_at(LEVELS * channel + level);
        let mut lower = after[LEVELS - level..].chunks(LEVELS);
        let lower = lower.any(|channel| channel[..level].iter().any(Sums::breaks));
        self.count(LOWER_AFTER, lower);
        self.count(PAST, before.iter().any(Sums::is_out_past_the_end));
        self.broke_by(&after[0]);
        let events = 0..=0xFF;
        let held = events
            .into_iter()
            .any(|event| self.card.level_of(event) == Some(level as u8));
        self.count(DISABLED, !looks[channel].enabled);
        self.count(UNHELD, !held);
        self.count(IN_SINE, self.mode_of(channel).is_sine());
    }

    /// What the sums of the ramp that was named are like.
    fn broke_by(&mut self, sums: &Sums) {
        let out = sums.out();
        let end = sums.own.len() - 1;
        let alone = end > 0 && out == [end];
        self.count(AT_END, alone);
        self.count(AT_63, alone && end == 63 && !sums.marked);
        self.count(BY_OFFSET, !sums.is_out_before_the_offset());
        self.count(BY_ONE, [-32_769, 32_768].contains(&sums.own[out[0]]));
    }

    /// The mode of a channel as the settings stand.
    fn mode_of(&self, channel: usize) -> Mode {
        let mut word = [0];
        self.card.read((channel << 12) as u16 + 0xA01, 1, &mut word);
        Mode(word[0])
    }
}

#[cfg(test)]
mod tests {
    use super::super::tests::count;
    use super::*;

    /// On channel 1, level 2 plays table 3 with scale factor 2 and some offset.
    fn ramp(offset: &str, table: &str) -> String {
        format!(
            "011180{table}\n0118020003\n0118420001\n0118610200\n0118820001\n0118A1{offset}\n16\n"
        )
    }

    /// The things of the list that a session reaches, with their counts.
    fn reached(session: &str) -> Vec<(&'static str, u64)> {
        let counts = OF_BENCH.map(|thing| (thing, count(session, thing)));
        counts.into_iter().filter(|&(_, count)| count > 0).collect()
    }

    #[test]
    fn checks_that_pass() {
        assert_eq!(reached("16\n16F\n"), [(PASSES, 1), (NO_CHECK, 1)]);
        let both = [(PASSES, 1), (PASSES_OTHER, 1)];
        assert_eq!(reached(&ramp("0000", "00000000")), both);
        let past = [both[0], both[1], (PASSES_PAST, 1)];
        assert_eq!(reached(&ramp("0000", "0000000040000001")), past);
        let edge = [both[0], both[1], (PASSES_EDGE, 1)];
        assert_eq!(reached(&ramp("0001", "000000013FFF0000")), edge);
        let moved = [both[0], both[1], (PASSES_BY_OFFSET, 1)];
        assert_eq!(reached(&ramp("FFF0", "0001000140000000")), moved);
    }

    #[test]
    fn checks_that_break() {
        let at = [(LATER, 1), (LATER_LEVEL, 1)];
        let rest = [(DISABLED, 1), (UNHELD, 1)];
        let all = |own: &[(&'static str, u64)]| [&at[..], own, &rest].concat();
        let alone = all(&[(AT_END, 1), (BY_ONE, 1)]);
        assert_eq!(reached(&ramp("0000", "0000000140000000")), alone);
        let both = all(&[(BY_OFFSET, 1), (BY_ONE, 1)]);
        assert_eq!(reached(&ramp("0002", "3FFF00013FFF0000")), both);
        let far = all(&[]);
        assert_eq!(reached(&ramp("0000", "5000000100000000")), far);
        let full = format!(
            "111180008000000001{}50000001\n0118020003\n0118420001\n0118610200\n16\n",
            "00000001".repeat(62)
        );
        assert_eq!(reached(&full), all(&[(AT_END, 1), (AT_63, 1)]));
    }

    #[test]
    fn checks_that_break_before_and_after_others() {
        let later = "01208050000000\n0128010001\n0128410001\n0128610200\n";
        assert_eq!(count(&format!("{later}16\n"), LOWER_AFTER), 0);
        let session = format!("{later}{}", ramp("0000", "5000000100000000"));
        assert_eq!(count(&session, LOWER_AFTER), 1);
        assert_eq!(count(&session, PAST), 0);
        let past = "0100800000000050000001\n0108000001\n0108400001\n0108610200\n";
        assert_eq!(count(&format!("{past}{session}"), PAST), 1);
        let first = format!("{session}01008050000000\n01081F0001\n01085F0001\n0108610200\n16\n");
        assert_eq!((count(&first, FIRST), count(&first, LATER)), (1, 1));
    }

    #[test]
    fn what_the_channel_and_the_level_are_like() {
        let bench = ramp("0000", "0000000140000000");
        let on = "011A000001\n011A010001\n0140100010\n";
        for thing in [DISABLED, UNHELD] {
            assert_eq!(count(&format!("{on}{bench}"), thing), 0, "{thing}");
        }
        assert_eq!(count(&format!("{on}{bench}"), IN_SINE), 1);
        let runs = format!("{on}{bench}0142020002\n03000A\n16\n");
        assert_eq!(count(&runs, WHILE_RUNNING), 1);
    }
}
