//! What sessions reach of sine mode, free run and wave tables.

use super::{loads_next, Player};
use crate::card::CHANNELS;
use crate::channel::{Given, Look, LOAD_AT};
use crate::sine::{Sine, Wave, WAVE_WORDS};

const WITH_PLAIN: &str = "sessions with a sample of a plain ramp";
const WITH_SINE: &str = "sessions with a sample in sine mode";
const WITH_FREE: &str = "sessions with a sample in free run";
const WITH_SUM: &str = "sessions with an amplitude overflow in sine mode";
const SINES: &str = "samples in sine mode";
const FREES: &str = "samples in free run";
const SUMS: &str = "amplitude overflows in sine mode";
const FIRST_SUMS: &str =
    "amplitude overflows on sample 0 in sine mode, the kept amplitude other than 0";
const KEPT_PLAIN: &str = "amplitude overflows in sine mode that keep a plain sample's amplitude";
const KEPT_WRITTEN: &str = "amplitude overflows in sine mode that keep a word written to A04";
const BY_COUNTING: &str = "free runs ended by a load by counting";
const BY_COUNTING_ON_SAMPLE: &str =
    "free runs ended by a load by counting on the tick of their next sample";
const AT_ONCE: &str = "free runs ended by a load at the trigger";
const AT_ONCE_ON_SAMPLE: &str =
    "free runs ended by a load at a tick's event after their sample of that tick";
const BY_DISABLED: &str = "free runs ended by a load of a disabled channel";
const UNDER_COUNTDOWN: &str = "free runs left under a countdown by a trigger";
const OUTPUT_REFUSED: &str = "writes to A04 answered 8 in free run";
const A00_CLEARED: &str = "A00 cleared in free run";
const A01_CHANGED: &str = "A01 changed in free run";
const READS: &str = "reads of the sine settings";
const BAD_MODES: &str = "values refused in A01";
const BAD_MAPS: &str = "values refused in the frequency and phase maps";

/// What sessions of both programs reach.
pub(super) const OF_BOTH: [&str; 22] = [
    WITH_PLAIN,
    WITH_SINE,
    WITH_FREE,
    WITH_SUM,
    SINES,
    FREES,
    SUMS,
    FIRST_SUMS,
    KEPT_PLAIN,
    KEPT_WRITTEN,
    BY_COUNTING,
    BY_COUNTING_ON_SAMPLE,
    AT_ONCE,
    AT_ONCE_ON_SAMPLE,
    BY_DISABLED,
    UNDER_COUNTDOWN,
    OUTPUT_REFUSED,
    A00_CLEARED,
    A01_CHANGED,
    READS,
    BAD_MODES,
    BAD_MAPS,
];

const WITH_OWN: &str = "sessions with a sine output other than 0 and than its amplitude";
const WITH_FREE_OWN: &str = "sessions with a free-run output other than 0";
const WITH_PRODUCT: &str = "sessions with a product that does not fit";
const WITH_BOTH: &str = "sessions with an amplitude overflow and such a product in one sample";
const OWN: &str = "sine outputs other than 0 and than their amplitude";
const FREE_OWN: &str = "free-run outputs other than 0";
const KEPT: &str = "sine outputs other than 0 of an amplitude kept on overflow";
const FLOORED: &str = "negative sine outputs that are rounded";
const PRODUCTS: &str = "products that do not fit";
const FREE_PRODUCTS: &str = "products that do not fit in free run";
const BOTH: &str = "samples with an amplitude overflow and a product that does not fit";
const QUARTERS: [&str; 4] = [
    "sine outputs other than 0 in the first quarter",
    "sine outputs other than 0 in the mirrored quarter",
    "sine outputs other than 0 in the negated quarter",
    "sine outputs other than 0 in the mirrored and negated quarter",
];
const TAKEN: &str = "wave tables taken";
const TAKEN_BEFORE_LOAD: &str = "wave tables taken between trigger and load";
const SERVED: &str = "sine ramps started with a wave table taken between load and start";
const BAD_CHANNEL: &str = "wave tables answered 9 for their channel alone";
const BAD_LENGTH: &str = "wave tables answered 9 for their length alone";
const BAD_WORD: &str = "wave tables answered 9 for a word alone";
const BAD_AND_RUNS: &str = "wave tables answered 9 while the channel runs or free-runs";
const RUNS: &str = "wave tables answered 8 while a ramp runs";
const FREE_RUNS: &str = "wave tables answered 8 in free run";
const OLDER_RUNS: &str = "wave tables answered 8 under a countdown";
const RESETS: &str = "resets in free run";

/// What only sessions of the bench program reach.
pub(super) const OF_BENCH: [&str; 26] = [
    WITH_OWN,
    WITH_FREE_OWN,
    WITH_PRODUCT,
    WITH_BOTH,
    OWN,
    FREE_OWN,
    KEPT,
    FLOORED,
    PRODUCTS,
    FREE_PRODUCTS,
    BOTH,
    QUARTERS[0],
    QUARTERS[1],
    QUARTERS[2],
    QUARTERS[3],
    TAKEN,
    TAKEN_BEFORE_LOAD,
    SERVED,
    BAD_CHANNEL,
    BAD_LENGTH,
    BAD_WORD,
    BAD_AND_RUNS,
    RUNS,
    FREE_RUNS,
    OLDER_RUNS,
    RESETS,
];

/// What has set a channel's amplitude.
#[derive(Clone, Copy, PartialEq, Eq)]
pub(super) enum Origin {
    Reset,
    Plain,
    Sine,
    Written,
}

/// A write that was answered.
pub(super) struct Written<'a> {
    pub start: u16,
    pub words: &'a [u16],
    pub number: u8,
    pub processed: u16,
}

/// Samples and the ends of free runs.
impl Player<'_> {
    /// What a tick has done on the channels.
    pub(super) fn sine_tick(&mut self, before: &[Look; CHANNELS], after: &[Look; CHANNELS]) {
        for (channel, (before, after)) in before.iter().zip(after).enumerate() {
            if let Some(given) = after.given {
                let first = before.countdown == 1;
                self.sample(channel, first, given);
            }
            if before.free_runs && loads_next(before) {
                self.count(BY_COUNTING, true);
                self.count(BY_COUNTING_ON_SAMPLE, before.sample_next);
                self.count(BY_DISABLED, !before.enabled);
            }
        }
    }

    /// A sample was given; whether it is the ramp's first.
    fn sample(&mut self, channel: usize, first: bool, given: Given) {
        let kept = given.sum_overflowed;
        let Some(sine) = given.sine else {
            if !kept {
                self.origin[channel] = Origin::Plain;
            }
            return self.once(WITH_PLAIN, true);
        };
        self.count(KEPT_PLAIN, kept && self.origin[channel] == Origin::Plain);
        self.count(
            KEPT_WRITTEN,
            kept && self.origin[channel] == Origin::Written,
        );
        if !kept && !given.free {
            self.origin[channel] = Origin::Sine;
        }
        for (each, once, reached) in [
            (SINES, WITH_SINE, true),
            (FREES, WITH_FREE, given.free),
            (SUMS, WITH_SUM, kept),
        ] {
            self.count(each, reached);
            self.once(once, reached);
        }
        self.count(FIRST_SUMS, first && kept && sine.amplitude != 0);
        if self.is_bench() {
            self.count(SERVED, first && self.handed_in[channel]);
            match sine.output() {
                Some(output) => self.sine_output(given, sine, output),
                None => self.no_output(given),
            }
        }
        self.handed_in[channel] &= !first;
    }

    /// The sine put a word out.
    fn sine_output(&mut self, given: Given, sine: Sine, output: u16) {
        if output == 0 {
            return;
        }
        let own = output != sine.amplitude;
        self.count(OWN, own);
        self.once(WITH_OWN, own);
        self.count(FREE_OWN, given.free);
        self.once(WITH_FREE_OWN, given.free);
        self.count(KEPT, given.sum_overflowed);
        self.count(FLOORED, sine.is_floored());
        self.count(QUARTERS[usize::from(sine.counter >> 14)], true);
    }

    /// The product did not fit.
    fn no_output(&mut self, given: Given) {
        self.count(PRODUCTS, true);
        self.once(WITH_PRODUCT, true);
        self.count(FREE_PRODUCTS, given.free);
        self.count(BOTH, given.sum_overflowed);
        self.once(WITH_BOTH, given.sum_overflowed);
    }

    /// A trigger was accepted; the looks are those just before it.
    pub(super) fn sine_trigger(&mut self, before: &[Look; CHANNELS], by_event: bool) {
        self.handed_in = [false; CHANNELS];
        let after = self.card.looks();
        for (before, after) in before.iter().zip(after) {
            let ended = before.free_runs && !after.free_runs;
            let sample = before.given.is_some_and(|given| given.free);
            self.count(AT_ONCE, ended);
            self.count(AT_ONCE_ON_SAMPLE, ended && by_event && sample);
            self.count(BY_DISABLED, ended && !before.enabled);
            self.count(UNDER_COUNTDOWN, after.free_runs);
        }
    }
}

/// Transfers, wave tables and resets.
impl Player<'_> {
    /// A write was answered; the looks are those just before it.
    pub(super) fn sine_write(&mut self, looks: &[Look; CHANNELS], written: Written) {
        let channel = usize::from(written.start >> 12);
        let Some(look) = looks.get(channel) else {
            return;
        };
        if written.start & 0x0FFF == 0xA04 && written.processed > 0 {
            self.origin[channel] = Origin::Written;
        }
        let refused = written.start.wrapping_add(written.processed) & 0x0FFF;
        let in_map = matches!(refused, 0x900..=0x91F | 0x940..=0x95F);
        self.count(BAD_MODES, written.number == 6 && refused == 0xA01);
        self.count(BAD_MAPS, written.number == 6 && in_map);
        if !look.free_runs {
            return;
        }
        let done = written.words.first().filter(|_| written.processed > 0);
        match written.start & 0x0FFF {
            0xA04 => self.count(OUTPUT_REFUSED, written.number == 8),
            0xA00 => self.count(A00_CLEARED, done == Some(&0)),
            0xA01 => self.count(A01_CHANGED, done.is_some_and(|&mode| mode != 5)),
            _ => {}
        }
    }

    /// A word was read from this address on.
    pub(super) fn sine_read(&mut self, start: u16) {
        let setting = matches!(start & 0x0FFF, 0x900..=0x97F | 0xA01);
        self.count(READS, start < 0x4000 && setting);
    }

    /// A wave table was answered with the number; the looks are those before.
    pub(super) fn wave_table(
        &mut self,
        looks: &[Look; CHANNELS],
        channel: usize,
        words: &[u16],
        number: u8,
    ) {
        let look = looks.get(channel);
        let runs = look.is_some_and(|look| look.ramp_runs || look.free_runs);
        let length = words.len() == WAVE_WORDS;
        let sound = Wave::of(words).is_some();
        self.count(BAD_CHANNEL, look.is_none() && sound);
        self.count(BAD_LENGTH, look.is_some() && !runs && !length);
        self.count(BAD_WORD, look.is_some() && !runs && length && !sound);
        self.count(BAD_AND_RUNS, number == 9 && runs);
        let Some(look) = look else {
            return;
        };
        let taken = number == 0;
        let refused = number == 8;
        self.count(TAKEN, taken);
        self.count(TAKEN_BEFORE_LOAD, taken && look.countdown > LOAD_AT);
        self.count(RUNS, refused && look.ramp_runs);
        self.count(FREE_RUNS, refused && look.free_runs);
        self.count(OLDER_RUNS, refused && look.countdown > 0);
        self.handed_in[channel] |= taken && (1..=LOAD_AT).contains(&look.countdown);
    }

    /// The card was reset; the looks are those just before.
    pub(super) fn sine_reset(&mut self, looks: &[Look; CHANNELS]) {
        self.sine_forget();
        self.count(RESETS, looks.iter().any(|look| look.free_runs));
    }

    /// The card is one with zeros for wave tables and amplitudes.
    pub(super) fn sine_forget(&mut self) {
        self.handed_in = [false; CHANNELS];
        self.origin = [Origin::Reset; CHANNELS];
    }
}

#[cfg(test)]
mod tests {
    use super::super::tests::count;
    use super::*;

    /// Channel 0 has a ramp of two points, 100 and 200, at level 1 and event
    /// 0x10, in free run; its wave table is all 8192, its frequency 0x4000.
    /// Level 2, event 0x20, has a delay of 50.
    fn session(frames: &str) -> String {
        let wave = format!("1000{}", "2000".repeat(WAVE_WORDS));
        format!(
            "0108010001\n01008000640001\n01008200C80000\n0108E20032\n\
            010A000001\n010A010005\n0109204000\n{wave}\n0140080010\n0140100020\n0142000001\n\
            {frames}"
        )
    }

    /// Checks the counts of a session of these frames.
    fn check(frames: &str, expected: &[(&str, u64)]) {
        for &(thing, times) in expected {
            assert_eq!(
                count(&session(frames), thing),
                times,
                "{thing}: {frames:.60}"
            );
        }
    }

    #[test]
    fn samples_and_quarters() {
        check("0410\n030009\n", &[(SINES, 0), (WITH_SINE, 0)]);
        check("0410\n03000A\n", &[(SINES, 1), (FREES, 0), (OWN, 1)]);
        check("0410\n030014\n", &[(SINES, 2), (FREES, 0), (OWN, 2)]);
        let five = [
            (SINES, 7),
            (FREES, 5),
            (WITH_SINE, 1),
            (WITH_FREE, 1),
            (WITH_OWN, 1),
            (WITH_FREE_OWN, 1),
            (FREE_OWN, 5),
            (QUARTERS[0], 2),
            (QUARTERS[1], 2),
            (QUARTERS[2], 2),
            (QUARTERS[3], 1),
            (FLOORED, 0),
            (PRODUCTS, 0),
            (WITH_PLAIN, 0),
        ];
        check("0410\n030046\n", &five);
        check("010A010000\n0410\n030046\n", &[(SINES, 0), (WITH_PLAIN, 1)]);
    }

    #[test]
    fn overflows() {
        // Scale 2: −16384 is the least amplitude, −32768 overflows.
        let scale = "0108610200\n0108410001\n010080C000000180000000\n";
        let full = format!("1000{}\n", "4000".repeat(WAVE_WORDS));
        let frames = format!("{scale}{full}0109208000\n0410\n030014\n");
        let both = [
            (SUMS, 1),
            (PRODUCTS, 1),
            (BOTH, 1),
            (FIRST_SUMS, 0),
            (FREE_PRODUCTS, 0),
            (WITH_SUM, 1),
            (WITH_PRODUCT, 1),
            (WITH_BOTH, 1),
        ];
        check(&frames, &both);
        let more = format!("{frames}030014\n0410\n03000A\n");
        check(&more, &[(PRODUCTS, 2), (FREE_PRODUCTS, 1), (SUMS, 1)]);
        let first = format!("{frames}01008080000000\n010A010001\n0142020001\n03000A\n");
        check(&first, &[(SUMS, 2), (FIRST_SUMS, 1), (KEPT, 1)]);
        let plain = format!("{frames}010A010000\n01008020000000\n0410\n03000A\n");
        let again = "010A010001\n01008080000000\n0410\n03000A\n";
        check(
            &format!("{plain}{again}"),
            &[(KEPT_PLAIN, 1), (KEPT_WRITTEN, 0)],
        );
        let written = format!("{plain}010A040007\n{again}");
        check(&written, &[(KEPT_PLAIN, 0), (KEPT_WRITTEN, 1)]);
        check("0100800003\n0410\n03000A\n", &[(FLOORED, 0)]);
        check("010080FFFD\n0410\n03000A\n", &[(FLOORED, 1)]);
    }

    #[test]
    fn ends_of_free_runs() {
        for (frames, counting, on_sample, at_once, at_once_on_sample) in [
            ("0410\n030014\n0410\n", 0, 0, 1, 0),
            ("0410\n03001D\n0410\n", 0, 0, 1, 1),
            ("0410\n03001E\n0142020001\n", 0, 0, 1, 0),
            ("0410\n030014\n0142020002\n030027\n", 0, 0, 0, 0),
            ("0410\n030014\n0142020002\n030028\n", 1, 1, 0, 0),
            ("0410\n030015\n0142020002\n030028\n", 1, 0, 0, 0),
            ("0410\n030013\n0142020002\n030028\n", 1, 0, 0, 0),
        ] {
            let expected = [
                (BY_COUNTING, counting),
                (BY_COUNTING_ON_SAMPLE, on_sample),
                (AT_ONCE, at_once),
                (AT_ONCE_ON_SAMPLE, at_once_on_sample),
                (BY_DISABLED, 0),
            ];
            check(frames, &expected);
        }
        let disabled = "0410\n030014\n010A000000\n0142020001\n";
        check(
            disabled,
            &[(A00_CLEARED, 1), (BY_DISABLED, 1), (AT_ONCE, 1)],
        );
        let under = "0410\n030014\n0142020002\n0142020002\n18\n";
        check(under, &[(UNDER_COUNTDOWN, 2), (RESETS, 1)]);
    }

    #[test]
    fn transfers() {
        let free = "0410\n030014\n010A040001\n010A010005\n010A010004\n010A000001\n";
        let expected = [(OUTPUT_REFUSED, 1), (A01_CHANGED, 1), (A00_CLEARED, 0)];
        check(free, &expected);
        let refused = "010A010002\n01091F0020\n015A010002\n1129410002001F0020\n01092000FF\n";
        check(refused, &[(BAD_MODES, 1), (BAD_MAPS, 2)]);
        let reads = "0209000001\n0239500002\n020A010001\n0209800001\n0249000001\n";
        check(reads, &[(READS, 3)]);
    }

    #[test]
    fn wave_tables() {
        let of = |channel: &str, word: &str, words: usize| {
            format!("10{channel}{}\n", word.repeat(words))
        };
        let (sound, bad) = (of("00", "C000", WAVE_WORDS), of("00", "4001", WAVE_WORDS));
        let (short, far) = (of("00", "0000", 3), of("04", "0000", WAVE_WORDS));
        let all = format!("{sound}{bad}{short}{far}{}", of("04", "0000", 1));
        let at_rest = [
            (TAKEN, 2),
            (BAD_WORD, 1),
            (BAD_LENGTH, 1),
            (BAD_CHANNEL, 1),
            (BAD_AND_RUNS, 0),
            (RUNS, 0),
        ];
        check(&all, &at_rest);
        let free = format!("0410\n030014\n{sound}{bad}{short}");
        check(
            &free,
            &[(TAKEN, 1), (FREE_RUNS, 1), (BAD_AND_RUNS, 2), (BAD_WORD, 0)],
        );
        let running = format!("0410\n03000A\n{sound}0142020002\n{sound}");
        check(&running, &[(RUNS, 2), (OLDER_RUNS, 1), (FREE_RUNS, 0)]);
        let between = format!("0410\n{sound}03000A\n");
        check(&between, &[(SERVED, 1), (TAKEN_BEFORE_LOAD, 0)]);
        let before = format!("0420\n{sound}030032\n");
        check(&before, &[(SERVED, 0), (TAKEN_BEFORE_LOAD, 1)]);
    }
}
