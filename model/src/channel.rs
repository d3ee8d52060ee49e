//! One channel: countdown, load, start, samples and free run.

use std::slice;

use crate::edition::{Edition, Fraction};
use crate::map::Region;
use crate::sine::{in_range, signed, Mode, Sine, Wave};

pub const LEVELS: usize = 32;
const TABLES: usize = 16;
/// The words of a table: V and time step of each of its 64 points.
pub const TABLE_WORDS: usize = 128;
/// The last point of a table: the ramp ends there whatever its time step.
const LAST_POINT: u16 = 63;
/// A channel loads when its countdown is set at or reaches this.
pub const LOAD_AT: u16 = 10;
/// Samples come at the start and every so many ticks.
const SAMPLE_TICKS: u8 = 10;
/// The scale word of factor one.
const SCALE_ONE: u16 = 0x0100;

/// A ramp that runs, or the free run after it; the segment and the samples
/// left are the channel's A33, A34.
#[derive(Clone, Copy, Debug, PartialEq, Eq)]
pub struct Run {
    /// Ticks until the next sample, 1 to 10.
    wait: u8,
    /// Whether the ramp has ended and the sine goes on.
    free: bool,
}

impl Run {
    /// A sample was just given.
    fn from_sample(free: bool) -> Run {
        Run {
            wait: SAMPLE_TICKS,
            free,
        }
    }
}

/// An accepted trigger: its level, and its event (0xFE if manual).
#[derive(Clone, Copy, Debug, PartialEq, Eq)]
pub struct Trigger {
    pub level: u8,
    pub event: u8,
}

/// What 0x4210 and 0x4211 show, and the trigger they are to show next.
#[derive(Clone, Debug)]
pub struct Active {
    pub shown: Trigger,
    /// The last trigger, until the first load that follows it. "A trigger
    /// replaced before any channel loads never shows there."
    pub pending: Option<Trigger>,
}

impl Active {
    /// They "change at the first load that follows a trigger, on whichever
    /// channel that comes first, to that trigger's level and event".
    fn show(&mut self) {
        if let Some(trigger) = self.pending.take() {
            self.shown = trigger;
        }
    }
}

/// "A channel is at rest, counting (toward a load or a start, perhaps with an
/// older ramp still running) or running"; a free run is a way of running.
#[derive(Clone, Copy, Debug, PartialEq, Eq)]
pub enum Phase {
    Rest,
    Counting {
        countdown: u16,
        level: u8,
        older: Option<Run>,
    },
    Running(Run),
}

/// The number of a ramp's table, and what it is scaled and moved by.
#[derive(Clone, Copy, Debug, PartialEq, Eq)]
pub struct Ramp {
    pub table: u16,
    pub scale: u16,
    pub offset: u16,
}

impl Ramp {
    /// The sum before its range is checked: S·f/256 as the edition cuts it,
    /// and the offset.
    pub fn sum(self, edition: Edition, f: Fraction) -> i64 {
        edition.scaled(self.scale, f) + signed(self.offset)
    }

    /// The sum as a word, or None on overflow; only the last sum is checked.
    pub fn sample(self, edition: Edition, f: Fraction) -> Option<u16> {
        in_range(self.sum(edition, f))
    }
}

/// What a load copies; later writes to the settings do not reach it.
#[derive(Clone, Debug)]
struct Loaded {
    ramp: Ramp,
    points: [u16; TABLE_WORDS],
    mode: Mode,
    frequency: u16,
    phase: u16,
}

impl Loaded {
    fn value(&self, point: u16) -> i64 {
        signed(self.points[2 * usize::from(point)])
    }

    fn time_step(&self, point: u16) -> u16 {
        self.points[2 * usize::from(point) + 1]
    }

    /// The f of segment n with m samples left. With m = 0 the ramp is at its
    /// end and f is that point's V.
    fn f(&self, n: u16, m: u16) -> Fraction {
        if m == 0 {
            return Fraction::whole(self.value(n));
        }
        let (from, to) = (self.value(n), self.value(n + 1));
        let steps = i64::from(self.time_step(n));
        Fraction {
            top: to * steps - (to - from) * i64::from(m),
            bottom: steps,
        }
    }
}

/// A sample as it was given.
#[derive(Clone, Copy, Debug, PartialEq, Eq)]
pub struct Given {
    /// Whether it is a free run's; else it is a ramp's.
    pub free: bool,
    /// The ramp's f; a free run has none.
    pub f: Option<Fraction>,
    /// Whether the ramp's sum was out of range.
    pub sum_overflowed: bool,
    /// What the output was made of in sine mode.
    pub sine: Option<Sine>,
}

/// One channel: its settings, what it loaded, its output and its phase.
#[derive(Clone, Debug)]
pub struct Channel {
    pub phase: Phase,
    pub output: u16,
    /// The last sum in range or word written to A04.
    pub amplitude: u16,
    /// The sine's counter, of the last sample.
    counter: u16,
    /// The sample given on the last tick.
    given: Option<Given>,
    enable: u16,
    mode: Mode,
    segment: u16,
    samples_left: u16,
    pub overflows: u16,
    loaded: Loaded,
    ramp_map: [u16; LEVELS],
    scale_map: [u16; LEVELS],
    scales: [u16; LEVELS],
    offset_map: [u16; LEVELS],
    offsets: [u16; LEVELS],
    delays: [u16; LEVELS],
    frequency_map: [u16; LEVELS],
    frequencies: [u16; LEVELS],
    phase_map: [u16; LEVELS],
    phases: [u16; LEVELS],
    pub tables: [u16; TABLES * TABLE_WORDS],
    /// The wave table, read as it stands at each sample.
    pub wave: Wave,
}

impl Channel {
    /// A channel after a reset.
    pub fn new() -> Self {
        Channel {
            phase: Phase::Rest,
            output: 0,
            amplitude: 0,
            counter: 0,
            given: None,
            enable: 0,
            mode: Mode(0),
            segment: 0,
            samples_left: 0,
            overflows: 0,
            loaded: Loaded {
                ramp: Ramp {
                    table: 0,
                    scale: SCALE_ONE,
                    offset: 0,
                },
                points: [0; TABLE_WORDS],
                mode: Mode(0),
                frequency: 0,
                phase: 0,
            },
            ramp_map: [0; LEVELS],
            scale_map: [0; LEVELS],
            scales: [SCALE_ONE; LEVELS],
            offset_map: [0; LEVELS],
            offsets: [0; LEVELS],
            delays: [0; LEVELS],
            frequency_map: [0; LEVELS],
            frequencies: [0; LEVELS],
            phase_map: [0; LEVELS],
            phases: [0; LEVELS],
            tables: [0; TABLES * TABLE_WORDS],
            wave: Wave::zeros(),
        }
    }

    /// The ramp or free run that goes on, be it an older one in a countdown.
    fn run_now(&self) -> Option<Run> {
        match self.phase {
            Phase::Rest => None,
            Phase::Counting { older, .. } => older,
            Phase::Running(run) => Some(run),
        }
    }

    /// Whether the channel runs or free-runs.
    pub fn runs(&self) -> bool {
        self.run_now().is_some()
    }

    pub fn look(&self) -> Look {
        let countdown = match self.phase {
            Phase::Counting { countdown, .. } => countdown,
            _ => 0,
        };
        let run = self.run_now();
        Look {
            countdown,
            enabled: self.enable == 1,
            ramp_runs: run.is_some_and(|run| !run.free),
            free_runs: run.is_some_and(|run| run.free),
            sample_next: run.is_some_and(|run| run.wait == 1),
            given: self.given,
            ramp: self.loaded.ramp,
            overflows: self.overflows,
        }
    }

    /// Sets the countdown anew to the delay for the level, at least 10. An
    /// older ramp or free run goes on until the load.
    pub fn trigger(&mut self, level: u8, active: &mut Active) {
        let countdown = self.delays[usize::from(level)].max(LOAD_AT);
        let mut older = self.run_now();
        if countdown == LOAD_AT {
            self.load(level, active);
            older = None;
        }
        self.phase = Phase::Counting {
            countdown,
            level,
            older,
        };
    }

    /// The ramp of a level as the settings stand.
    pub fn ramp(&self, level: usize) -> Ramp {
        Ramp {
            table: self.ramp_map[level],
            scale: self.scales[usize::from(self.scale_map[level])],
            offset: self.offsets[usize::from(self.offset_map[level])],
        }
    }

    /// Copies the pending level's table, scale factor, offset, mode, frequency
    /// and phase; the trigger now shows.
    fn load(&mut self, level: u8, active: &mut Active) {
        active.show();
        let level = usize::from(level);
        self.loaded.ramp = self.ramp(level);
        let first = TABLE_WORDS * usize::from(self.loaded.ramp.table);
        let table = &self.tables[first..first + TABLE_WORDS];
        self.loaded.points.copy_from_slice(table);
        self.loaded.mode = self.mode;
        self.loaded.frequency = self.frequencies[usize::from(self.frequency_map[level])];
        self.loaded.phase = self.phases[usize::from(self.phase_map[level])];
        self.segment = 0;
        self.samples_left = 0;
    }

    /// One microsecond on a card of the edition.
    #[inline(always)]
    pub fn tick(&mut self, edition: Edition, active: &mut Active) {
        self.given = None;
        match self.phase {
            Phase::Rest => {}
            Phase::Counting {
                countdown,
                level,
                older,
            } => self.count(countdown - 1, level, older, edition, active),
            Phase::Running(run) => {
                self.phase = self.run(run, edition).map_or(Phase::Rest, Phase::Running);
            }
        }
    }

    /// The countdown has come to this number on this tick.
    #[inline]
    fn count(
        &mut self,
        countdown: u16,
        level: u8,
        older: Option<Run>,
        edition: Edition,
        active: &mut Active,
    ) {
        let older = match countdown {
            0 => return self.start(edition),
            // The load comes before the tick's sample: the old ramp gives none.
            LOAD_AT => {
                self.load(level, active);
                None
            }
            _ => older.and_then(|run| self.run(run, edition)),
        };
        self.phase = Phase::Counting {
            countdown,
            level,
            older,
        };
    }

    /// At countdown 0 the ramp starts if A00 is 1; otherwise nothing starts.
    /// "A 16-bit counter starts at the phase on sample 0."
    fn start(&mut self, edition: Edition) {
        let run = if self.enable == 1 {
            self.counter = self.loaded.phase;
            self.reach(0, edition)
        } else {
            None
        };
        self.phase = run.map_or(Phase::Rest, Phase::Running);
    }

    /// One tick of a ramp or a free run; None when the channel rests after it.
    /// The counter "grows by the frequency each later sample".
    #[inline]
    fn run(&mut self, run: Run, edition: Edition) -> Option<Run> {
        if run.wait > 1 {
            return Some(Run {
                wait: run.wait - 1,
                ..run
            });
        }
        self.counter = self.counter.wrapping_add(self.loaded.frequency);
        if run.free {
            self.give_free_sample();
            Some(Run::from_sample(true))
        } else if self.samples_left > 1 {
            self.samples_left -= 1;
            self.give_sample(edition);
            Some(Run::from_sample(false))
        } else {
            self.reach(self.segment + 1, edition)
        }
    }

    /// The ramp comes to a point and gives its sample. It ends at a point with
    /// time step 0, and at point 63 whatever its step: then it free-runs, or
    /// None when it rests.
    fn reach(&mut self, point: u16, edition: Edition) -> Option<Run> {
        self.segment = point;
        self.samples_left = if point == LAST_POINT {
            0
        } else {
            self.loaded.time_step(point)
        };
        self.give_sample(edition);
        let ends = self.samples_left == 0;
        (!ends || self.loaded.mode.is_free_run()).then_some(Run::from_sample(ends))
    }

    /// A ramp's sample. "An amplitude overflow keeps the previous amplitude",
    /// and in sine mode the sine goes on with it.
    fn give_sample(&mut self, edition: Edition) {
        let f = self.loaded.f(self.segment, self.samples_left);
        let sum = self.loaded.ramp.sample(edition, f);
        if let Some(word) = sum {
            self.amplitude = word;
        }
        let sine = self.loaded.mode.is_sine().then(|| self.sine());
        let given = Given {
            free: false,
            f: Some(f),
            sum_overflowed: sum.is_none(),
            sine,
        };
        self.put_out(given, sine.map_or(sum, Sine::output));
    }

    /// A free run's sample, made of the kept amplitude.
    fn give_free_sample(&mut self) {
        let sine = self.sine();
        let given = Given {
            free: true,
            f: None,
            sum_overflowed: false,
            sine: Some(sine),
        };
        self.put_out(given, sine.output());
    }

    /// The sine of this sample; the wave table is the one there now.
    fn sine(&self) -> Sine {
        Sine {
            counter: self.counter,
            amplitude: self.amplitude,
            word: self.wave.word(self.counter),
        }
    }

    /// Puts the sample out. Where its output does not fit it is held; A39
    /// grows by 1 for that, for a sum out of range, and for both.
    fn put_out(&mut self, given: Given, output: Option<u16>) {
        if given.sum_overflowed || output.is_none() {
            self.overflows = self.overflows.wrapping_add(1);
        }
        self.output = output.unwrap_or(self.output);
        self.given = Some(given);
    }

    /// The words of a row that holds settings.
    pub fn settings(&self, region: Region) -> &[u16] {
        match region {
            Region::Tables => &self.tables,
            Region::RampMap => &self.ramp_map,
            Region::ScaleMap => &self.scale_map,
            Region::Scales => &self.scales,
            Region::OffsetMap => &self.offset_map,
            Region::Offsets => &self.offsets,
            Region::Delays => &self.delays,
            Region::FrequencyMap => &self.frequency_map,
            Region::Frequencies => &self.frequencies,
            Region::PhaseMap => &self.phase_map,
            Region::Phases => &self.phases,
            Region::Enable => slice::from_ref(&self.enable),
            Region::Mode => slice::from_ref(&self.mode.0),
            _ => unreachable!("the other rows hold no settings, or are the card's"),
        }
    }

    /// A word of the channel's rows.
    pub fn read_word(&self, region: Region, index: usize) -> u16 {
        match region {
            Region::Output => self.output,
            Region::LoadedTable => self.loaded.ramp.table,
            Region::LoadedScale => self.loaded.ramp.scale,
            Region::LoadedOffset => self.loaded.ramp.offset,
            Region::Segment => self.segment,
            Region::SamplesLeft => self.samples_left,
            Region::Overflows => self.overflows,
            _ => self.settings(region)[index],
        }
    }

    /// Does one accepted write to the channel's rows.
    pub fn write_word(&mut self, region: Region, index: usize, value: u16) {
        match region {
            Region::Tables => self.tables[index] = value,
            Region::RampMap => self.ramp_map[index] = value,
            Region::ScaleMap => self.scale_map[index] = value,
            Region::Scales => self.scales[index] = value,
            Region::OffsetMap => self.offset_map[index] = value,
            Region::Offsets => self.offsets[index] = value,
            Region::Delays => self.delays[index] = value,
            Region::FrequencyMap => self.frequency_map[index] = value,
            Region::Frequencies => self.frequencies[index] = value,
            Region::PhaseMap => self.phase_map[index] = value,
            Region::Phases => self.phases[index] = value,
            Region::Enable => self.enable = value,
            Region::Mode => self.mode = Mode(value),
            // The amplitude is set too.
            Region::Output => (self.output, self.amplitude) = (value, value),
            // "Any, sets 0."
            Region::Overflows => self.overflows = 0,
            _ => unreachable!("the other rows are refused, or the card's"),
        }
    }
}

/// What a look at a channel shows, without a transfer.
#[derive(Clone, Copy, Debug)]
pub struct Look {
    /// The ticks to its start, 0 when it does not count.
    pub countdown: u16,
    /// Whether its waveform is enabled.
    pub enabled: bool,
    /// Whether a ramp runs, be it an older one during a countdown.
    pub ramp_runs: bool,
    /// Whether it free-runs, be it during a countdown.
    pub free_runs: bool,
    /// Whether the ramp or free run gives a sample on the next tick.
    pub sample_next: bool,
    /// The sample given on the last tick.
    pub given: Option<Given>,
    /// The ramp that was loaded.
    pub ramp: Ramp,
    pub overflows: u16,
}
