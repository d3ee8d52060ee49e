//! The checked examples of the paper, its numbers, its retriggers, and the
//! level shown.

use super::*;
use crate::channel::Phase;
use crate::map::{CARD_ROWS, CHANNEL_ROWS};

pub(super) fn bench() -> Card {
    bench_on(Edition::One)
}

/// A card whose channel 0 runs table 1 at level 1 with entries 1, enabled.
pub(super) fn bench_on(edition: Edition) -> Card {
    let mut card = Card::fresh(edition);
    for (address, value) in [(0x0801, 1), (0x0841, 1), (0x0881, 1), (0x0A00, 1)] {
        set(&mut card, address, value);
    }
    card
}

/// The number and the words processed.
fn done(answer: Answer) -> (Number, usize) {
    (answer.number, answer.processed)
}

pub(super) fn write(card: &mut Card, start: u16, words: &[u16]) -> (Number, usize) {
    done(card.write(start, words.len(), words))
}

pub(super) fn set(card: &mut Card, address: u16, value: u16) {
    assert_eq!(write(card, address, &[value]), (Number::Done, 1));
}

pub(super) fn get(card: &Card, address: u16) -> u16 {
    let mut word = [0];
    assert_eq!(card.read(address, 1, &mut word).number, Number::Done);
    word[0]
}

fn read(card: &Card, start: u16, count: usize) -> (Number, usize) {
    done(card.read(start, count, &mut [0; 64]))
}

/// Writes the points (V, time step) of table 1 of channel 0.
pub(super) fn set_table(card: &mut Card, points: &[(i16, u16)]) {
    for (n, &(value, step)) in points.iter().enumerate() {
        let words = [value as u16, step];
        let start = 0x0080 + 2 * n as u16;
        assert_eq!(write(card, start, &words), (Number::Done, 2));
    }
}

pub(super) fn set_sum(card: &mut Card, scale: u16, offset: i16) {
    set(card, 0x0861, scale);
    set(card, 0x08A1, offset as u16);
}

pub(super) fn manual(card: &mut Card, level: u16) {
    set(card, 0x4202, level);
}

pub(super) fn ticks(card: &mut Card, count: usize) {
    for _ in 0..count {
        card.tick();
    }
}

pub(super) fn output(card: &Card) -> i16 {
    card.outputs()[0] as i16
}

/// Segment and samples left of channel 0.
pub(super) fn shown(card: &Card) -> (u16, u16) {
    (get(card, 0x0A33), get(card, 0x0A34))
}

/// The samples of a ramp on a card of edition 1.
fn samples(points: &[(i16, u16)], scale: u16, offset: i16) -> Vec<i16> {
    samples_on(Edition::One, points, scale, offset)
}

pub(super) fn samples_on(
    edition: Edition,
    points: &[(i16, u16)],
    scale: u16,
    offset: i16,
) -> Vec<i16> {
    let mut card = bench_on(edition);
    set_table(&mut card, points);
    set_sum(&mut card, scale, offset);
    samples_of(&mut card)
}

/// The outputs on ticks 10, 20, ... after a trigger, until the ramp rests.
pub(super) fn samples_of(card: &mut Card) -> Vec<i16> {
    manual(card, 1);
    let mut given = Vec::new();
    loop {
        ticks(card, 10);
        given.push(output(card));
        if !card.channels[0].runs() {
            return given;
        }
    }
}

/// The output and overflow count after a ramp of the one point V.
fn single(value: i16, offset: i16) -> (i16, u16) {
    let mut card = bench();
    set(&mut card, 0x0A04, 77);
    set_table(&mut card, &[(value, 0)]);
    set_sum(&mut card, 0x0200, offset);
    manual(&mut card, 1);
    ticks(&mut card, 10);
    (output(&card), get(&card, 0x0A39))
}

const SAW: [(i16, u16); 3] = [(0, 4), (400, 2), (100, 0)];

#[test]
fn checked_ramps() {
    let given = samples(&SAW, 0x0100, 0);
    assert_eq!(given, [0, 100, 200, 300, 400, 250, 100]);
    let given = samples(&SAW, 0x0080, 0);
    assert_eq!(given, [0, 50, 100, 150, 200, 125, 50]);
    let given = samples(&SAW, 0xFF00, 10);
    assert_eq!(given, [10, -90, -190, -290, -390, -240, -90]);
    assert_eq!(samples(&[(0, 3), (10, 0)], 0x0100, 0), [0, 3, 6, 10]);
    assert_eq!(samples(&[(0, 3), (10, 0)], 0xFF00, 0), [0, -4, -7, -10]);
}

#[test]
fn checked_overflows() {
    assert_eq!(single(16383, 1), (32767, 0));
    assert_eq!(single(16383, 2), (77, 1));
    assert_eq!(single(-16384, 0), (-32768, 0));
    assert_eq!(single(-16384, -1), (77, 1));
    assert_eq!(single(32767, -32767), (32767, 0));
}

#[test]
fn checked_delays_0_and_10_load_at_the_trigger() {
    for delay in [0, 5, 10] {
        let mut card = bench();
        set_table(&mut card, &[(7, 0)]);
        set(&mut card, 0x08E1, delay);
        manual(&mut card, 1);
        assert_eq!(get(&card, 0x0A30), 1);
        ticks(&mut card, 9);
        assert_eq!(output(&card), 0);
        ticks(&mut card, 1);
        assert_eq!(output(&card), 7);
    }
}

#[test]
fn checked_delay_11_loads_on_tick_1() {
    let mut card = bench();
    set_table(&mut card, &[(7, 0)]);
    set(&mut card, 0x08E1, 11);
    manual(&mut card, 1);
    assert_eq!(get(&card, 0x0A30), 0);
    // Until the load the last write counts, from then on it waits.
    set_table(&mut card, &[(8, 0)]);
    ticks(&mut card, 1);
    assert_eq!(get(&card, 0x0A30), 1);
    set_table(&mut card, &[(9, 0)]);
    ticks(&mut card, 9);
    assert_eq!(output(&card), 0);
    ticks(&mut card, 1);
    assert_eq!(output(&card), 8);
}

#[test]
fn checked_transfers() {
    let mut card = Card::fresh(Edition::One);
    let stopped = write(&mut card, 0x07FE, &[1, 0, 1, 1]);
    assert_eq!(stopped, (Number::Beyond, 2));
    assert_eq!((get(&card, 0x07FE), get(&card, 0x07FF)), (1, 0));
    assert_eq!((get(&card, 0x0800), get(&card, 0x0801)), (0, 0));
    assert_eq!(write(&mut card, 0x007F, &[0]), (Number::Fixed, 0));
    set(&mut card, 0x4000, 0x10);
    let stopped = write(&mut card, 0x4008, &[0x11, 0x10, 0x12]);
    assert_eq!(stopped, (Number::Held, 1));
    assert_eq!((get(&card, 0x4008), get(&card, 0x4009)), (0x11, 0xFE));
}

#[test]
fn addresses_the_paper_names() {
    let mut card = Card::fresh(Edition::One);
    set(&mut card, 0x228F, 6);
    assert_eq!(card.channels[2].tables[128 * 5 + 2 * 7 + 1], 6);
    set(&mut card, 0x401A, 0x33);
    assert_eq!(card.slots[8 * 3 + 2], 0x33);
    assert_eq!(get(&card, 0x4133), 0x0083);
}

#[test]
fn after_a_reset() {
    let card = Card::fresh(Edition::One);
    for base in [0x0000, 0x1000, 0x2000, 0x3000] {
        let mut words = [1; 32];
        card.read(base + 0x860, 32, &mut words);
        assert_eq!(words, [0x0100; 32]);
        assert_eq!(get(&card, base + 0xA31), 0x0100);
        for zero in [0x7FF, 0x81F, 0x85F, 0x89F, 0x8BF, 0x8FF, 0xA00, 0xA04] {
            assert_eq!(get(&card, base + zero), 0);
        }
        for zero in (0x900..=0x97F).chain([0xA01]) {
            assert_eq!(get(&card, base + zero), 0);
        }
        for zero in [0xA30, 0xA32, 0xA33, 0xA34, 0xA39] {
            assert_eq!(get(&card, base + zero), 0);
        }
    }
    assert_eq!((get(&card, 0x4000), get(&card, 0x40FF)), (0xFE, 0xFE));
    assert_eq!((get(&card, 0x4210), get(&card, 0x4211)), (0, 0xFE));
    assert_eq!((get(&card, 0x41FE), get(&card, 0x4200)), (0, 0));
    assert_eq!(get(&card, 0x423F), 0);
}

#[test]
fn regions_are_disjoint_and_in_order() {
    for rows in [&CHANNEL_ROWS[..], &CARD_ROWS[..]] {
        assert!(rows.iter().all(|row| row.0 <= row.1));
        assert!(rows.windows(2).all(|pair| pair[0].1 < pair[1].0));
    }
    for unlisted in [0x0820, 0x08C0, 0x0980, 0x0A02, 0x0A05, 0x0A35, 0x0FFF] {
        assert!(Place::find(unlisted).is_none());
    }
    for unlisted in [0x4203, 0x420F, 0x4212, 0x421F, 0x4240, 0x4400, 0xFFFF] {
        assert!(Place::find(unlisted).is_none());
    }
}

#[test]
fn each_number_once() {
    let mut card = bench();
    set_table(&mut card, &SAW);
    assert_eq!(write(&mut card, 0x0802, &[15, 0]), (Number::Done, 2));
    assert_eq!(write(&mut card, 0x0802, &[]), (Number::BadCount, 0));
    assert_eq!(write(&mut card, 0x0820, &[0]), (Number::NoRegion, 0));
    assert_eq!(write(&mut card, 0x4211, &[0]), (Number::NoAccess, 0));
    assert_eq!(write(&mut card, 0x081F, &[3, 3]), (Number::Beyond, 1));
    assert_eq!(write(&mut card, 0x0860, &[3, 3]), (Number::Fixed, 0));
    assert_eq!(write(&mut card, 0x0802, &[2, 16]), (Number::BadValue, 1));
    set(&mut card, 0x4000, 0x10);
    assert_eq!(write(&mut card, 0x40FF, &[0x10]), (Number::Held, 0));
    manual(&mut card, 1);
    ticks(&mut card, 10);
    assert_eq!(write(&mut card, 0x0A04, &[5]), (Number::RampRuns, 0));
    assert_eq!(read(&card, 0x0802, 2), (Number::Done, 2));
    assert_eq!(read(&card, 0x0802, 0), (Number::BadCount, 0));
    assert_eq!(read(&card, 0xFFFF, 2), (Number::NoRegion, 0));
    assert_eq!(read(&card, 0x4202, 2), (Number::NoAccess, 0));
    assert_eq!(read(&card, 0x41FF, 2), (Number::Beyond, 1));
}

#[test]
fn bad_counts() {
    let mut card = Card::fresh(Edition::One);
    let mut many = vec![1; 20_000];
    let refused = (Number::BadCount, 0);
    for count in [0, 16_382, 20_000, 20_001] {
        assert_eq!(done(card.read(0x0080, count, &mut many)), refused);
        assert_eq!(done(card.write(0x0080, count, &many)), refused);
    }
    let beyond = (Number::Beyond, 1920);
    assert_eq!(done(card.write(0x0080, 16_381, &many)), beyond);
    assert_eq!(done(card.read(0x0080, 16_381, &mut many)), beyond);
    assert_eq!(done(card.read(0x0080, 3, &mut [0; 2])), refused);
}

#[test]
fn the_order_of_the_numbers() {
    let mut card = bench();
    // 1 before 2 and 3, 2 before all of a word, 3 before 4.
    assert_eq!(write(&mut card, 0x0820, &[]), (Number::BadCount, 0));
    assert_eq!(write(&mut card, 0x4210, &[]), (Number::BadCount, 0));
    assert_eq!(write(&mut card, 0x4203, &[9, 9]), (Number::NoRegion, 0));
    assert_eq!(write(&mut card, 0x4210, &[9, 9]), (Number::NoAccess, 0));
    // 4 before 5 and 6: the words beyond would be fixed, or not accepted.
    assert_eq!(write(&mut card, 0x085F, &[1, 0]), (Number::Beyond, 1));
    assert_eq!(write(&mut card, 0x085F, &[1, 99]), (Number::Beyond, 1));
    // 6 before 7: a reserved bit on an event held elsewhere.
    set(&mut card, 0x4000, 0x10);
    assert_eq!(write(&mut card, 0x4008, &[0x110]), (Number::BadValue, 0));
    // 8 for the first word, before 4 for the second.
    set_table(&mut card, &SAW);
    assert_eq!(write(&mut card, 0x0A04, &[5, 6]), (Number::Beyond, 1));
    manual(&mut card, 1);
    ticks(&mut card, 10);
    assert_eq!(write(&mut card, 0x0A04, &[5, 6]), (Number::RampRuns, 0));
}

#[test]
fn a_transfer_stops_at_the_first_word_refused_and_keeps_the_rest() {
    let mut card = Card::fresh(Edition::One);
    let mut words = [0xAAAA; 4];
    let stopped = done(card.read(0x081E, 4, &mut words));
    assert_eq!(stopped, (Number::Beyond, 2));
    assert_eq!(words, [0, 0, 0xAAAA, 0xAAAA]);
    let stopped = write(&mut card, 0x4202, &[3, 4]);
    assert_eq!(stopped, (Number::Beyond, 1));
    assert_eq!((get(&card, 0x4223), get(&card, 0x4224)), (1, 0));
    assert_eq!(write(&mut card, 0x4202, &[32]), (Number::BadValue, 0));
    // The words before count at once: the second word meets the first.
    let stopped = write(&mut card, 0x4007, &[0x20, 0x20]);
    assert_eq!(stopped, (Number::Held, 1));
}

#[test]
fn accepted_values() {
    let mut card = Card::fresh(Edition::One);
    let bounds = [
        (0x0800, 15),
        (0x0840, 31),
        (0x0880, 31),
        (0x0900, 31),
        (0x091F, 31),
        (0x0940, 31),
        (0x095F, 31),
        (0x0A00, 1),
        (0x4000, 0xFF),
        (0x4200, 1),
        (0x4201, 1),
        (0x4202, 31),
    ];
    for (address, greatest) in bounds {
        set(&mut card, address, greatest);
        let stopped = write(&mut card, address, &[greatest + 1]);
        assert_eq!(stopped, (Number::BadValue, 0));
        let stopped = write(&mut card, address, &[0x8000]);
        assert_eq!(stopped, (Number::BadValue, 0));
    }
    for address in [0x0080, 0x0861, 0x08A1, 0x08E0, 0x0A04, 0x0A39, 0x4220] {
        set(&mut card, address, 0xFFFF);
    }
    // No entry of the frequencies and of the phases is fixed.
    for address in [0x0920, 0x093F, 0x0960, 0x097F] {
        set(&mut card, address, 0xFFFF);
    }
    for fixed in [0x1000, 0x107F, 0x1860, 0x18A0] {
        assert_eq!(write(&mut card, fixed, &[0]), (Number::Fixed, 0));
    }
}

#[test]
fn events_and_slots() {
    let mut card = Card::fresh(Edition::One);
    // One level may hold an event twice; emptying one leaves the other.
    assert_eq!(write(&mut card, 0x4008, &[0x10, 0x10]), (Number::Done, 2));
    set(&mut card, 0x4008, 0xFE);
    assert_eq!(get(&card, 0x4110), 0x0081);
    card.event(0x10);
    assert_eq!(get(&card, 0x4221), 0);
    set(&mut card, 0x4200, 1);
    for event in [0x10, 0x11, 0xFE] {
        card.event(event);
    }
    assert_eq!(get(&card, 0x4221), 1);
    assert_eq!((get(&card, 0x4210), get(&card, 0x4211)), (1, 0x10));
    // Disabled, the map stays and manual triggers still count.
    set(&mut card, 0x4200, 0);
    card.event(0x10);
    manual(&mut card, 2);
    assert_eq!((get(&card, 0x4221), get(&card, 0x4222)), (1, 1));
    assert_eq!((get(&card, 0x4210), get(&card, 0x4211)), (2, 0xFE));
    // A new event replaces the slot's old one, which is then free.
    set(&mut card, 0x4009, 0x22);
    set(&mut card, 0x4010, 0x10);
    assert_eq!((get(&card, 0x4110), get(&card, 0x4122)), (0x82, 0x81));
    set(&mut card, 0x4201, 0);
    assert_eq!(get(&card, 0x4110), 0x82);
    set(&mut card, 0x4201, 1);
    assert_eq!((get(&card, 0x4110), get(&card, 0x4010)), (0, 0xFE));
}

#[test]
fn counts_go_round_and_are_cleared() {
    let mut card = bench();
    set_table(&mut card, &[(32767, 0)]);
    set_sum(&mut card, 0x0200, 0);
    card.level_counts[1] = 65_535;
    card.channels[0].overflows = 65_535;
    manual(&mut card, 1);
    ticks(&mut card, 10);
    assert_eq!((get(&card, 0x4221), get(&card, 0x0A39)), (0, 0));
    manual(&mut card, 1);
    ticks(&mut card, 10);
    assert_eq!((get(&card, 0x4221), get(&card, 0x0A39)), (1, 1));
    set(&mut card, 0x4221, 0x1234);
    set(&mut card, 0x0A39, 0xFFFF);
    assert_eq!((get(&card, 0x4221), get(&card, 0x0A39)), (0, 0));
}

#[test]
fn segment_and_samples_left_show_the_last_sample() {
    let mut card = bench();
    set_table(&mut card, &SAW);
    manual(&mut card, 1);
    assert_eq!(shown(&card), (0, 0));
    let mut seen = Vec::new();
    for _ in 0..8 {
        ticks(&mut card, 10);
        seen.push(shown(&card));
    }
    let expected = [
        (0, 4),
        (0, 3),
        (0, 2),
        (0, 1),
        (1, 2),
        (1, 1),
        (2, 0),
        (2, 0),
    ];
    assert_eq!(seen, expected);
    assert_eq!(card.channels[0].phase, Phase::Rest);
}

#[test]
fn point_63_ends_the_ramp_whatever_its_time_step() {
    let points: Vec<(i16, u16)> = (0..64).map(|n| (n, 1)).collect();
    let given = samples(&points, 0x0100, 0);
    assert_eq!(given, (0..64).collect::<Vec<i16>>());
}

#[test]
fn an_overflowing_sample_holds_the_output_and_the_ramp_goes_on() {
    let mut card = bench();
    set_table(&mut card, &[(0, 2), (20000, 2), (0, 0)]);
    set_sum(&mut card, 0x0200, 0);
    manual(&mut card, 1);
    let mut given = Vec::new();
    for _ in 0..5 {
        ticks(&mut card, 10);
        given.push((output(&card), get(&card, 0x0A39)));
    }
    let expected = [(0, 0), (20000, 0), (20000, 1), (20000, 1), (0, 1)];
    assert_eq!(given, expected);
}

#[test]
fn enable_counts_at_the_start_alone() {
    let mut card = bench();
    set_table(&mut card, &SAW);
    set(&mut card, 0x0A00, 0);
    manual(&mut card, 1);
    ticks(&mut card, 9);
    set(&mut card, 0x0A00, 1);
    ticks(&mut card, 1);
    assert!(card.channels[0].runs());
    set(&mut card, 0x0A00, 0);
    ticks(&mut card, 10);
    assert_eq!(output(&card), 100);
    // Disabled at its start the new ramp stays away; its load still aborts.
    manual(&mut card, 1);
    assert!(!card.channels[0].runs());
    ticks(&mut card, 100);
    assert_eq!((output(&card), shown(&card)), (100, (0, 0)));
    assert_eq!(card.channels[0].phase, Phase::Rest);
}

#[test]
fn no_write_after_the_load_alters_the_ramp() {
    let mut card = bench();
    set_table(&mut card, &SAW);
    manual(&mut card, 1);
    set_table(&mut card, &[(9, 9), (9, 9), (9, 9), (9, 9)]);
    set_sum(&mut card, 0x0700, 7);
    set(&mut card, 0x0801, 3);
    set(&mut card, 0x0841, 3);
    set(&mut card, 0x0881, 3);
    set(&mut card, 0x08E1, 500);
    ticks(&mut card, 60);
    assert_eq!((output(&card), shown(&card)), (250, (1, 1)));
    ticks(&mut card, 10);
    assert_eq!((output(&card), shown(&card)), (100, (2, 0)));
}

/// A bench with the saw running at level 1 and event 0x10, started, and
/// level 2 with table 2 (one point, 7), event 0x20 and the given delay.
fn running(delay: u16) -> Card {
    let mut card = bench();
    set_table(&mut card, &SAW);
    set(&mut card, 0x0802, 2);
    set(&mut card, 0x0100, 7);
    set(&mut card, 0x08E2, delay);
    set(&mut card, 0x4008, 0x10);
    set(&mut card, 0x4010, 0x20);
    set(&mut card, 0x4200, 1);
    card.event(0x10);
    ticks(&mut card, 10);
    assert_eq!((output(&card), shown(&card)), (0, (0, 4)));
    card
}

#[test]
fn the_older_ramp_runs_until_the_load() {
    let mut card = running(25);
    card.event(0x20);
    ticks(&mut card, 9);
    assert_eq!((output(&card), shown(&card)), (100, (0, 3)));
    assert_eq!(write(&mut card, 0x0A04, &[5]), (Number::RampRuns, 0));
    ticks(&mut card, 5);
    assert_eq!((output(&card), shown(&card)), (100, (0, 3)));
    // Tick 15 after the trigger: the load.
    ticks(&mut card, 1);
    assert_eq!((output(&card), shown(&card)), (100, (0, 0)));
    assert_eq!(get(&card, 0x0A30), 2);
    assert_eq!(write(&mut card, 0x0A04, &[5]), (Number::Done, 1));
    ticks(&mut card, 9);
    assert_eq!(output(&card), 5);
    ticks(&mut card, 1);
    assert_eq!(output(&card), 7);
}

#[test]
fn a_load_reached_by_counting_comes_before_the_sample() {
    // The trigger is taken on tick 1 of the ramp, the load comes on tick 10.
    let mut card = running(19);
    card.event(0x20);
    ticks(&mut card, 8);
    assert_eq!(shown(&card), (0, 4));
    ticks(&mut card, 1);
    assert_eq!((output(&card), shown(&card)), (0, (0, 0)));
    ticks(&mut card, 10);
    assert_eq!(output(&card), 7);
}

#[test]
fn a_load_at_the_trigger_of_an_event_comes_after_the_sample() {
    let mut card = running(0);
    ticks(&mut card, 9);
    assert_eq!(output(&card), 0);
    card.event(0x20);
    assert_eq!((output(&card), shown(&card)), (100, (0, 0)));
    assert_eq!(get(&card, 0x0A30), 2);
    ticks(&mut card, 9);
    assert_eq!(output(&card), 100);
    ticks(&mut card, 1);
    assert_eq!(output(&card), 7);
}

#[test]
fn a_retrigger_during_the_countdown_sets_it_anew() {
    let mut card = bench();
    set_table(&mut card, &[(7, 0)]);
    set(&mut card, 0x08E1, 30);
    manual(&mut card, 1);
    ticks(&mut card, 19);
    assert_eq!(get(&card, 0x0A30), 0);
    manual(&mut card, 1);
    ticks(&mut card, 19);
    assert_eq!(get(&card, 0x0A30), 0);
    ticks(&mut card, 1);
    assert_eq!(get(&card, 0x0A30), 1);
    ticks(&mut card, 9);
    assert_eq!(output(&card), 0);
    ticks(&mut card, 1);
    assert_eq!(output(&card), 7);
    assert_eq!(get(&card, 0x4221), 2);
}

#[test]
fn a_retrigger_between_load_and_start_drops_the_start() {
    let mut card = running(40);
    manual(&mut card, 1);
    ticks(&mut card, 9);
    manual(&mut card, 2);
    assert_eq!(get(&card, 0x0A30), 1);
    ticks(&mut card, 29);
    assert_eq!((get(&card, 0x0A30), output(&card)), (1, 0));
    ticks(&mut card, 1);
    assert_eq!((get(&card, 0x0A30), output(&card)), (2, 0));
    ticks(&mut card, 10);
    assert_eq!(output(&card), 7);
}

#[test]
fn an_event_on_the_tick_of_the_start_comes_after_the_first_sample() {
    let mut card = running(20);
    set(&mut card, 0x0080, 50);
    manual(&mut card, 1);
    ticks(&mut card, 9);
    card.event(0x20);
    assert_eq!((output(&card), shown(&card)), (50, (0, 4)));
    assert!(card.channels[0].runs());
    // The older ramp's next sample would fall on the tick of the load.
    ticks(&mut card, 10);
    assert_eq!((output(&card), shown(&card)), (50, (0, 0)));
    ticks(&mut card, 10);
    assert_eq!(output(&card), 7);
}

#[test]
fn the_older_ramp_may_rest_during_the_countdown() {
    let mut card = running(200);
    card.event(0x20);
    ticks(&mut card, 59);
    assert_eq!((output(&card), shown(&card)), (100, (2, 0)));
    assert_eq!(write(&mut card, 0x0A04, &[5]), (Number::Done, 1));
    ticks(&mut card, 140);
    assert_eq!((output(&card), shown(&card)), (5, (0, 0)));
    ticks(&mut card, 1);
    assert_eq!(output(&card), 7);
}

#[test]
fn channels_keep_to_themselves() {
    let mut card = Card::fresh(Edition::One);
    for base in [0x0000, 0x1000, 0x2000, 0x3000] {
        let mine = base >> 12;
        set(&mut card, base + 0x801, 15);
        set(&mut card, base + 0x780, 100 + mine);
        set(&mut card, base + 0x8E1, 10 + 2 * mine);
        set(&mut card, base + 0xA00, 1);
    }
    manual(&mut card, 1);
    ticks(&mut card, 12);
    assert_eq!(card.outputs(), [100, 101, 0, 0]);
    ticks(&mut card, 4);
    assert_eq!(card.outputs(), [100, 101, 102, 103]);
}

/// The four delays of a level.
fn set_delays(card: &mut Card, level: u16, delays: [u16; CHANNELS]) {
    for (channel, delay) in delays.into_iter().enumerate() {
        set(card, ((channel as u16) << 12) + 0x8E0 + level, delay);
    }
}

/// The active level and its event.
fn active(card: &Card) -> (u16, u16) {
    (get(card, 0x4210), get(card, 0x4211))
}

/// Level 1 has events 0x10 and 0x11, level 2 has event 0x20, and all eight
/// delays are long: the first loads come on ticks 20 and 30.
fn late() -> Card {
    let mut card = bench();
    set_delays(&mut card, 1, [500, 30, 65535, 31]);
    set_delays(&mut card, 2, [40, 41, 500, 40]);
    assert_eq!(write(&mut card, 0x4008, &[0x10, 0x11]), (Number::Done, 2));
    set(&mut card, 0x4010, 0x20);
    set(&mut card, 0x4200, 1);
    card
}

#[test]
fn the_level_shows_at_the_first_load_and_counts_at_the_trigger() {
    let mut card = late();
    card.event(0x10);
    for _ in 0..20 {
        assert_eq!((active(&card), get(&card, 0x4221)), ((0, 0xFE), 1));
        card.tick();
    }
    // The loads of the other channels show nothing new.
    for _ in 0..66_000 {
        assert_eq!(active(&card), (1, 0x10));
        card.tick();
    }
    assert_eq!(get(&card, 0x4221), 1);
}

#[test]
fn a_load_on_any_channel_shows_the_level() {
    // Channel 0 alone is enabled: loads of disabled channels count.
    for channel in 0..CHANNELS {
        for (delay, tick) in [(0, 0), (9, 0), (10, 0), (11, 1), (12, 2), (29, 19)] {
            let mut card = late();
            let mut delays = [500, 30, 65535, 31];
            delays[channel] = delay;
            set_delays(&mut card, 1, delays);
            card.event(0x11);
            for _ in 0..tick {
                assert_eq!(active(&card), (0, 0xFE));
                card.tick();
            }
            assert_eq!(active(&card), (1, 0x11), "{channel} {delay}");
        }
    }
}

#[test]
fn a_trigger_replaced_before_any_load_never_shows() {
    let mut card = late();
    card.event(0x20);
    ticks(&mut card, 29);
    // The next tick would load.
    manual(&mut card, 1);
    ticks(&mut card, 10);
    card.event(0x11);
    for _ in 0..20 {
        assert_eq!(active(&card), (0, 0xFE));
        card.tick();
    }
    assert_eq!(active(&card), (1, 0x11));
    assert_eq!((get(&card, 0x4221), get(&card, 0x4222)), (2, 1));
}

#[test]
fn on_one_tick_a_load_shows_the_older_trigger_before_the_event() {
    let mut card = late();
    card.event(0x10);
    ticks(&mut card, 19);
    assert_eq!(active(&card), (0, 0xFE));
    card.event(0x20);
    for _ in 0..30 {
        assert_eq!((active(&card), get(&card, 0x4222)), ((1, 0x10), 1));
        card.tick();
    }
    assert_eq!(active(&card), (2, 0x20));
    // A new trigger that loads at once shows at once.
    let mut card = late();
    set(&mut card, 0x38E2, 10);
    card.event(0x10);
    ticks(&mut card, 19);
    assert_eq!(active(&card), (0, 0xFE));
    card.event(0x20);
    assert_eq!(active(&card), (2, 0x20));
    assert_eq!((get(&card, 0x4221), get(&card, 0x4222)), (1, 1));
}

#[test]
fn the_event_shown_is_the_one_that_triggered() {
    let mut card = late();
    card.event(0x10);
    ticks(&mut card, 19);
    set(&mut card, 0x4201, 1);
    set(&mut card, 0x4008, 0x33);
    set(&mut card, 0x4010, 0x10);
    set(&mut card, 0x4200, 0);
    assert_eq!(active(&card), (0, 0xFE));
    card.tick();
    assert_eq!(active(&card), (1, 0x10));
    // By hand there is no event, whatever the level's slots hold.
    manual(&mut card, 2);
    ticks(&mut card, 29);
    assert_eq!(active(&card), (1, 0x10));
    card.tick();
    assert_eq!(active(&card), (2, 0xFE));
}

#[test]
fn delays_written_while_a_trigger_is_pending_wait_for_the_next() {
    let mut card = late();
    card.event(0x10);
    set_delays(&mut card, 1, [0; CHANNELS]);
    ticks(&mut card, 19);
    assert_eq!(active(&card), (0, 0xFE));
    card.tick();
    assert_eq!(active(&card), (1, 0x10));
}
