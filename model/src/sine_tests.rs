//! Sine mode: its settings, the kept amplitude, the counter, free run, the
//! wave table and the refusals.

use super::tests::{bench, get, manual, output, set, set_sum, set_table, shown, ticks, write};
use super::*;
use crate::sine::WAVE_WORDS;

const SINE: u16 = 1;
const FREE_RUN: u16 = 5;

/// Hands in a wave table of this word to channel 0.
fn flat(card: &mut Card, word: i16) -> Number {
    card.wave_table(0, &[word as u16; WAVE_WORDS])
}

/// Frequency and phase of level 1, as entries 3 and 4 of channel 0.
fn set_wave(card: &mut Card, frequency: u16, phase: u16) {
    for (address, value) in [
        (0x0901, 3),
        (0x0941, 4),
        (0x0923, frequency),
        (0x0964, phase),
    ] {
        set(card, address, value);
    }
}

/// A card whose channel 0 is in the mode, its wave table all 16384: the output
/// is the amplitude while bit 15 of the counter is clear. Level 1 is event
/// 0x10, level 2 is event 0x20, table 2 and one point of 7.
fn sine_bench(mode: u16, points: &[(i16, u16)]) -> Card {
    let mut card = bench();
    set_table(&mut card, points);
    set_sum(&mut card, 0x0100, 0);
    set(&mut card, 0x0A01, mode);
    set(&mut card, 0x0802, 2);
    set(&mut card, 0x0100, 7);
    set(&mut card, 0x4008, 0x10);
    set(&mut card, 0x4010, 0x20);
    set(&mut card, 0x4200, 1);
    assert_eq!(flat(&mut card, 16_384), Number::Done);
    card
}

/// The outputs on the next ticks 10, 20, ...
fn outputs(card: &mut Card, count: usize) -> Vec<i16> {
    let sample = |_| {
        ticks(card, 10);
        output(card)
    };
    (0..count).map(sample).collect()
}

/// The overflow count of channel 0.
fn overflows(card: &Card) -> u16 {
    get(card, 0x0A39)
}

/// A card in free run: the end's sample of 100 was given on the last tick, and
/// the sign changes with every sample.
fn free_running() -> Card {
    let mut card = sine_bench(FREE_RUN, &[(50, 1), (100, 0)]);
    set_wave(&mut card, 0x8000, 0x8000);
    manual(&mut card, 1);
    assert_eq!(outputs(&mut card, 2), [-50, 100]);
    card
}

const SAW: [(i16, u16); 3] = [(0, 4), (400, 2), (100, 0)];

#[test]
fn a01_accepts_0_1_4_and_5() {
    let mut card = Card::fresh(Edition::One);
    for base in [0x0000, 0x1000, 0x2000, 0x3000] {
        for mode in 0..=300 {
            let accepted = [0, 1, 4, 5].contains(&mode);
            let before = get(&card, base + 0xA01);
            let expected = if accepted {
                (Number::Done, 1)
            } else {
                (Number::BadValue, 0)
            };
            assert_eq!(write(&mut card, base + 0xA01, &[mode]), expected);
            let after = get(&card, base + 0xA01);
            assert_eq!(after, if accepted { mode } else { before });
        }
    }
    for mode in [0x8000, 0x8001, 0xFFFF, 0x0105] {
        assert_eq!(write(&mut card, 0x0A01, &[mode]), (Number::BadValue, 0));
    }
    // A region of one word, like A00 before it.
    assert_eq!(write(&mut card, 0x0A00, &[1, 1]), (Number::Beyond, 1));
    assert_eq!(write(&mut card, 0x0A01, &[1, 1]), (Number::Beyond, 1));
    assert_eq!(write(&mut card, 0x0A02, &[1]), (Number::NoRegion, 0));
}

#[test]
fn the_new_regions_are_four() {
    let mut card = Card::fresh(Edition::One);
    for (last, words) in [(0x91F, [1, 2]), (0x93F, [3, 4]), (0x95F, [5, 6])] {
        let stopped = write(&mut card, 0x2000 + last, &words);
        assert_eq!(stopped, (Number::Beyond, 1));
        assert_eq!(get(&card, 0x2000 + last), words[0]);
        assert_eq!(get(&card, 0x2000 + last + 1), 0);
    }
    assert_eq!(write(&mut card, 0x297F, &[7, 8]), (Number::Beyond, 1));
    assert_eq!(write(&mut card, 0x2980, &[0]), (Number::NoRegion, 0));
    assert_eq!(write(&mut card, 0x08FF, &[0, 0]), (Number::Beyond, 1));
    assert_eq!(write(&mut card, 0x2900, &[31, 32]), (Number::BadValue, 1));
    assert_eq!(write(&mut card, 0x2940, &[31, 32]), (Number::BadValue, 1));
}

#[test]
fn the_output_is_amplitude_times_word() {
    let mut card = sine_bench(SINE, &SAW);
    flat(&mut card, 8192);
    manual(&mut card, 1);
    assert_eq!(outputs(&mut card, 8), [0, 50, 100, 150, 200, 125, 50, 50]);
    // At the ramp's end the output holds and the channel rests.
    assert_eq!(shown(&card), (2, 0));
    assert_eq!(write(&mut card, 0x0A04, &[5]), (Number::Done, 1));
    // The floor is toward minus infinity.
    let mut card = sine_bench(SINE, &[(3, 1), (-3, 0)]);
    flat(&mut card, -8192);
    manual(&mut card, 1);
    assert_eq!(outputs(&mut card, 2), [-2, 1]);
}

#[test]
fn the_counter_starts_at_the_phase_and_grows_by_the_frequency() {
    let words: Vec<u16> = (0..1024).map(|n| 8 * n + 8).collect();
    let mut card = sine_bench(SINE, &[(2048, 9), (2048, 0)]);
    assert_eq!(card.wave_table(0, &words), Number::Done);
    // A word at index n gives an output of n + 1.
    set_wave(&mut card, 0x2010, 0x1FF0);
    manual(&mut card, 1);
    // Up the table, mirrored, negated, mirrored and negated, and round: the
    // counters are 1FF0, 4000, 6010, 8020, A030, C040, E050, 0060, 2070, 4080.
    let expected = [512, 1024, 511, -3, -516, -1020, -507, 7, 520, 1016];
    assert_eq!(outputs(&mut card, 10), expected);
}

#[test]
fn mode_frequency_and_phase_are_taken_at_the_load() {
    let mut card = sine_bench(SINE, &[(100, 3), (100, 0)]);
    set_wave(&mut card, 0x8000, 0x8000);
    set(&mut card, 0x08E1, 12);
    manual(&mut card, 1);
    // Until the load the last write counts.
    set_wave(&mut card, 0x8000, 0);
    ticks(&mut card, 2);
    set_wave(&mut card, 0x1234, 0x8000);
    set(&mut card, 0x0901, 9);
    set(&mut card, 0x0941, 9);
    set(&mut card, 0x0A01, 0);
    assert_eq!(outputs(&mut card, 4), [100, -100, 100, -100]);
    ticks(&mut card, 100);
    // The next load is plain.
    manual(&mut card, 1);
    ticks(&mut card, 2);
    assert_eq!(outputs(&mut card, 2), [100, 100]);
}

#[test]
fn mode_5_at_the_load_serves_though_a01_was_0_at_the_trigger() {
    let mut card = sine_bench(0, &[(100, 0)]);
    set_wave(&mut card, 0x8000, 0);
    set(&mut card, 0x08E1, 11);
    manual(&mut card, 1);
    set(&mut card, 0x0A01, FREE_RUN);
    ticks(&mut card, 1);
    set(&mut card, 0x0A01, 0);
    assert_eq!(outputs(&mut card, 4), [100, -100, 100, -100]);
}

#[test]
fn mode_4_is_kept_and_does_nothing() {
    let mut card = sine_bench(4, &[(100, 1), (200, 0)]);
    set_wave(&mut card, 0x8000, 0x8000);
    flat(&mut card, 1);
    manual(&mut card, 1);
    assert_eq!(outputs(&mut card, 4), [100, 200, 200, 200]);
    assert_eq!(write(&mut card, 0x0A04, &[5]), (Number::Done, 1));
    assert_eq!(get(&card, 0x0A01), 4);
}

#[test]
fn an_amplitude_overflow_keeps_the_amplitude_and_the_sine_goes_on() {
    // With scale 2 the sums are 20000, then 40000 out of range, then 600.
    let mut card = sine_bench(SINE, &[(10_000, 1), (20_000, 1), (300, 0)]);
    set_sum(&mut card, 0x0200, 0);
    set_wave(&mut card, 0x8000, 0);
    manual(&mut card, 1);
    assert_eq!(outputs(&mut card, 1), [20_000]);
    assert_eq!(overflows(&card), 0);
    // Not held: computed anew with the kept amplitude.
    assert_eq!(outputs(&mut card, 1), [-20_000]);
    assert_eq!((overflows(&card), shown(&card)), (1, (1, 1)));
    assert_eq!(outputs(&mut card, 1), [600]);
    assert_eq!((overflows(&card), shown(&card)), (1, (2, 0)));
}

#[test]
fn one_amplitude_is_kept_over_ramps_modes_and_writes() {
    let overflow = [(20_000, 0)];
    // After a reset it is 0.
    let mut card = sine_bench(SINE, &overflow);
    set_sum(&mut card, 0x0200, 0);
    manual(&mut card, 1);
    assert_eq!(outputs(&mut card, 1), [0]);
    assert_eq!(overflows(&card), 1);
    // An A04 write sets it, also between load and start.
    manual(&mut card, 1);
    set(&mut card, 0x0A04, 77);
    assert_eq!(outputs(&mut card, 1), [77]);
    // A sine's own amplitude stays for the next ramp.
    set_table(&mut card, &[(321, 0)]);
    manual(&mut card, 1);
    assert_eq!(outputs(&mut card, 1), [642]);
    set_table(&mut card, &overflow);
    flat(&mut card, -16_384);
    manual(&mut card, 1);
    assert_eq!(outputs(&mut card, 1), [-642]);
    manual(&mut card, 1);
    assert_eq!(outputs(&mut card, 1), [-642]);
    // A plain sample in range sets it.
    set(&mut card, 0x0A01, 0);
    manual(&mut card, 2);
    assert_eq!(outputs(&mut card, 1), [7]);
    // A plain sample out of range leaves it, and the output.
    manual(&mut card, 1);
    assert_eq!(outputs(&mut card, 1), [7]);
    set(&mut card, 0x0A01, SINE);
    manual(&mut card, 1);
    assert_eq!(outputs(&mut card, 1), [-7]);
    assert_eq!(overflows(&card), 6);
}

#[test]
fn a_read_of_a04_gives_the_output() {
    let mut card = sine_bench(SINE, &[(400, 0)]);
    flat(&mut card, -4096);
    manual(&mut card, 1);
    ticks(&mut card, 10);
    assert_eq!(get(&card, 0x0A04) as i16, -100);
    assert_eq!(card.channels[0].amplitude, 400);
}

#[test]
fn a_refused_a04_write_leaves_the_amplitude() {
    let mut card = sine_bench(SINE, &[(100, 1), (20_000, 0)]);
    set_sum(&mut card, 0x0200, 0);
    manual(&mut card, 1);
    assert_eq!(outputs(&mut card, 1), [200]);
    assert_eq!(write(&mut card, 0x0A04, &[5]), (Number::RampRuns, 0));
    assert_eq!(outputs(&mut card, 1), [200]);
    assert_eq!(overflows(&card), 1);
}

#[test]
fn a_product_that_does_not_fit_is_held_and_counted() {
    for (word, phase) in [(-16_384, 0x0000), (16_384, 0x8000), (-16_384, 0x4000)] {
        let mut card = sine_bench(SINE, &[(-32_768, 2), (-32_768, 1), (-32_767, 0)]);
        flat(&mut card, word);
        set(&mut card, 0x0A04, 55);
        set_wave(&mut card, 0x0010, phase);
        manual(&mut card, 1);
        assert_eq!(outputs(&mut card, 3), [55, 55, 55]);
        assert_eq!((overflows(&card), shown(&card)), (3, (1, 1)));
        // The product is judged after bit 15's negation.
        assert_eq!(outputs(&mut card, 1), [32_767]);
        assert_eq!(overflows(&card), 3);
    }
    for (word, phase) in [(16_384, 0x0000), (-16_384, 0x8000), (16_384, 0x4000)] {
        let mut card = sine_bench(SINE, &[(-32_768, 0)]);
        flat(&mut card, word);
        set_wave(&mut card, 0x0010, phase);
        manual(&mut card, 1);
        assert_eq!(outputs(&mut card, 1), [-32_768]);
        assert_eq!(overflows(&card), 0);
    }
}

#[test]
fn both_overflows_of_a_sample_count_once() {
    // With scale 2 the sums are −32768, then −65536 out of range.
    let mut card = sine_bench(SINE, &[(-16_384, 1), (-32_768, 1), (-32_768, 0)]);
    set_sum(&mut card, 0x0200, 0);
    set_wave(&mut card, 0x8000, 0);
    manual(&mut card, 1);
    assert_eq!(outputs(&mut card, 1), [-32_768]);
    assert_eq!(overflows(&card), 0);
    assert_eq!(outputs(&mut card, 1), [-32_768]);
    assert_eq!(overflows(&card), 1);
    // The sum alone: the product fits again.
    assert_eq!(outputs(&mut card, 1), [-32_768]);
    assert_eq!(overflows(&card), 2);
    card.channels[0].overflows = 65_535;
    flat(&mut card, -16_384);
    manual(&mut card, 1);
    ticks(&mut card, 10);
    assert_eq!(overflows(&card), 0);
}

#[test]
fn a_free_run_goes_on_every_10_ticks() {
    let mut card = free_running();
    assert_eq!(shown(&card), (1, 0));
    for round in 0..1000 {
        let sign = if round % 2 == 0 { 1 } else { -1 };
        ticks(&mut card, 9);
        assert_eq!(output(&card), sign * 100);
        ticks(&mut card, 1);
        assert_eq!(output(&card), sign * -100);
    }
    // A33 and A34 stay.
    assert_eq!((shown(&card), overflows(&card)), ((1, 0), 0));
}

#[test]
fn a_ramp_of_one_point_free_runs_from_its_start() {
    let mut card = sine_bench(FREE_RUN, &[(100, 0)]);
    set_wave(&mut card, 0x4000, 0x4000);
    manual(&mut card, 1);
    assert_eq!(write(&mut card, 0x0A04, &[1]), (Number::Done, 1));
    assert_eq!(outputs(&mut card, 1), [100]);
    assert_eq!(write(&mut card, 0x0A04, &[1]), (Number::RampRuns, 0));
    assert_eq!(outputs(&mut card, 5), [-100, -100, 100, 100, -100]);
}

#[test]
fn point_63_free_runs_whatever_its_time_step() {
    let mut points = vec![(0, 1); 63];
    points.push((100, 500));
    let mut card = sine_bench(FREE_RUN, &points);
    set_wave(&mut card, 0x8000, 0x8000);
    manual(&mut card, 1);
    assert_eq!(outputs(&mut card, 66)[62..], [0, 100, -100, 100]);
    assert_eq!(shown(&card), (63, 0));
}

#[test]
fn products_overflow_in_free_run_too() {
    let mut card = sine_bench(FREE_RUN, &[(-32_768, 0)]);
    set_wave(&mut card, 0x8000, 0);
    manual(&mut card, 1);
    assert_eq!(outputs(&mut card, 5), [-32_768; 5]);
    assert_eq!(overflows(&card), 2);
}

#[test]
fn an_amplitude_kept_at_the_end_serves_the_free_run() {
    let mut card = sine_bench(FREE_RUN, &[(100, 1), (20_000, 0)]);
    set_sum(&mut card, 0x0200, 0);
    set_wave(&mut card, 0x8000, 0);
    manual(&mut card, 1);
    assert_eq!(outputs(&mut card, 4), [200, -200, 200, -200]);
    // The end's sum alone is counted.
    assert_eq!(overflows(&card), 1);
}

#[test]
fn clearing_a00_or_a01_in_free_run_waits_for_the_next_load() {
    for (address, value) in [(0x0A00, 0), (0x0A01, 0), (0x0A01, 1), (0x0A01, 4)] {
        let mut card = free_running();
        set(&mut card, address, value);
        assert_eq!(outputs(&mut card, 4), [-100, 100, -100, 100]);
        assert_eq!(write(&mut card, 0x0A04, &[1]), (Number::RampRuns, 0));
        manual(&mut card, 1);
        ticks(&mut card, 9);
        assert_eq!((output(&card), shown(&card)), (100, (0, 0)));
        let expected = match (address, value) {
            (0x0A00, _) => [100, 100, 100],
            (_, 1) => [-50, 100, 100],
            _ => [50, 100, 100],
        };
        ticks(&mut card, 1);
        let mut given = vec![output(&card)];
        given.extend(outputs(&mut card, 2));
        assert_eq!(given, expected, "{address:04X} {value}");
        assert_eq!(write(&mut card, 0x0A04, &[1]), (Number::Done, 1));
    }
}

#[test]
fn a_load_by_counting_comes_before_the_free_run_s_sample() {
    // Free-run samples fall on ticks 10, 20, 30 from here, the load on 20.
    let mut card = free_running();
    set(&mut card, 0x08E2, 29);
    card.event(0x20);
    ticks(&mut card, 8);
    assert_eq!(output(&card), 100);
    ticks(&mut card, 1);
    assert_eq!((output(&card), shown(&card)), (-100, (1, 0)));
    assert_eq!(write(&mut card, 0x0A04, &[1]), (Number::RampRuns, 0));
    ticks(&mut card, 9);
    assert_eq!((output(&card), shown(&card)), (-100, (1, 0)));
    ticks(&mut card, 1);
    assert_eq!((output(&card), shown(&card)), (-100, (0, 0)));
    assert_eq!(write(&mut card, 0x0A04, &[1]), (Number::Done, 1));
    ticks(&mut card, 9);
    assert_eq!(output(&card), 1);
    ticks(&mut card, 1);
    assert_eq!(output(&card), 7);
}

#[test]
fn a_load_at_a_tick_s_event_comes_after_the_free_run_s_sample() {
    let mut card = free_running();
    ticks(&mut card, 9);
    assert_eq!(output(&card), 100);
    card.event(0x20);
    assert_eq!((output(&card), shown(&card)), (-100, (0, 0)));
    ticks(&mut card, 9);
    assert_eq!(output(&card), -100);
    ticks(&mut card, 1);
    assert_eq!(output(&card), 7);
    // Level 2 has frequency 0, and mode 5 still: it free-runs.
    assert_eq!(outputs(&mut card, 3), [7, 7, 7]);
    assert_eq!(write(&mut card, 0x0A04, &[1]), (Number::RampRuns, 0));
}

#[test]
fn a_load_by_hand_ends_the_free_run_at_once() {
    let mut card = free_running();
    ticks(&mut card, 5);
    manual(&mut card, 1);
    assert_eq!(shown(&card), (0, 0));
    assert_eq!(write(&mut card, 0x0A04, &[3]), (Number::Done, 1));
    ticks(&mut card, 9);
    assert_eq!(output(&card), 3);
    // The counter starts at the phase anew.
    ticks(&mut card, 1);
    assert_eq!(output(&card), -50);
}

#[test]
fn a_load_of_a_disabled_channel_ends_the_free_run() {
    for delay in [10, 25] {
        let mut card = free_running();
        set(&mut card, 0x08E1, delay);
        set(&mut card, 0x0A00, 0);
        manual(&mut card, 1);
        ticks(&mut card, usize::from(delay) - 10);
        let held = output(&card);
        assert_eq!(shown(&card), (0, 0));
        assert_eq!(outputs(&mut card, 10), [held; 10]);
        assert_eq!(write(&mut card, 0x0A04, &[3]), (Number::Done, 1));
    }
}

#[test]
fn a_second_trigger_leaves_the_free_run_under_the_countdown() {
    let mut card = free_running();
    set(&mut card, 0x08E1, 1000);
    manual(&mut card, 1);
    assert_eq!(outputs(&mut card, 3), [-100, 100, -100]);
    manual(&mut card, 1);
    assert_eq!(outputs(&mut card, 3), [100, -100, 100]);
    assert_eq!(flat(&mut card, 0), Number::RampRuns);
}

#[test]
fn the_order_of_a04_s_numbers_in_free_run() {
    let mut card = free_running();
    assert_eq!(write(&mut card, 0x0A04, &[1, 2]), (Number::RampRuns, 0));
    assert_eq!(write(&mut card, 0x0A04, &[]), (Number::BadCount, 0));
    assert_eq!(outputs(&mut card, 2), [-100, 100]);
}

#[test]
fn a_wave_table_is_refused_with_9_before_8() {
    let full = [0x2000; WAVE_WORDS];
    let mut bad = full;
    bad[1023] = 0x4001;
    let mut low = full;
    low[0] = 0xBFFF;
    for mut card in [Card::fresh(Edition::One), free_running()] {
        let before = format!("{card:?}");
        for channel in [4, 5, 255, usize::MAX] {
            assert_eq!(card.wave_table(channel, &full), Number::BadWave);
        }
        for words in [&full[..0], &full[..1023], &[0; 1025], &bad, &low] {
            assert_eq!(card.wave_table(0, words), Number::BadWave);
        }
        assert_eq!(format!("{card:?}"), before);
    }
    let mut card = free_running();
    let before = format!("{card:?}");
    assert_eq!(card.wave_table(0, &full), Number::RampRuns);
    assert_eq!(format!("{card:?}"), before);
    assert_eq!(outputs(&mut card, 2), [-100, 100]);
    // The other channels are at rest.
    assert_eq!(card.wave_table(3, &full), Number::Done);
}

#[test]
fn a_wave_table_is_refused_while_a_plain_ramp_runs() {
    let mut card = sine_bench(0, &SAW);
    set(&mut card, 0x08E2, 40);
    manual(&mut card, 1);
    ticks(&mut card, 10);
    assert_eq!(flat(&mut card, 1), Number::RampRuns);
    // Counting with an older ramp, and after that ramp's end.
    manual(&mut card, 2);
    assert_eq!(flat(&mut card, 1), Number::RampRuns);
    set(&mut card, 0x08E2, 400);
    manual(&mut card, 2);
    ticks(&mut card, 59);
    assert_eq!(flat(&mut card, 1), Number::RampRuns);
    ticks(&mut card, 1);
    assert_eq!(flat(&mut card, 1), Number::Done);
}

#[test]
fn a_wave_table_handed_in_before_the_start_serves_that_ramp() {
    let mut card = sine_bench(SINE, &[(100, 1), (100, 0)]);
    set(&mut card, 0x08E1, 30);
    manual(&mut card, 1);
    // A channel that only counts takes it: before the load and after.
    assert_eq!(flat(&mut card, 4096), Number::Done);
    ticks(&mut card, 29);
    assert_eq!(flat(&mut card, 8192), Number::Done);
    ticks(&mut card, 1);
    assert_eq!(output(&card), 50);
    assert_eq!(flat(&mut card, 4096), Number::RampRuns);
    assert_eq!(outputs(&mut card, 1), [50]);
    // After the end without free run it is taken, and the output holds.
    assert_eq!(flat(&mut card, 4096), Number::Done);
    assert_eq!(outputs(&mut card, 2), [50, 50]);
}

#[test]
fn channels_keep_their_own_waves() {
    let mut card = Card::fresh(Edition::One);
    for (channel, base) in [0x0000, 0x1000, 0x2000, 0x3000].into_iter().enumerate() {
        for (address, value) in [(0x801, 1), (0x080, 1600), (0xA00, 1), (0xA01, SINE)] {
            set(&mut card, base + address, value);
        }
        let word = 1024 << channel;
        assert_eq!(card.wave_table(channel, &[word; WAVE_WORDS]), Number::Done);
    }
    manual(&mut card, 1);
    ticks(&mut card, 10);
    assert_eq!(card.outputs(), [100, 200, 400, 800]);
}

#[test]
fn without_a_wave_table_the_sine_is_0() {
    let mut card = bench();
    set_table(&mut card, &SAW);
    set(&mut card, 0x0A01, SINE);
    set(&mut card, 0x0A04, 99);
    manual(&mut card, 1);
    ticks(&mut card, 9);
    assert_eq!(output(&card), 99);
    ticks(&mut card, 1);
    assert_eq!(outputs(&mut card, 7), [0; 7]);
}

#[test]
fn the_amplitude_is_0_after_a_reset() {
    let mut card = Card::fresh(Edition::One);
    set_table(&mut card, &[(20_000, 0)]);
    for (address, value) in [(0x0801, 1), (0x0841, 1), (0x0861, 0x0200), (0x0A00, 1)] {
        set(&mut card, address, value);
    }
    set(&mut card, 0x0A01, SINE);
    flat(&mut card, 16_384);
    manual(&mut card, 1);
    // The sum is out of range and the amplitude is 0.
    assert_eq!(outputs(&mut card, 2), [0, 0]);
    assert_eq!(overflows(&card), 1);
}
