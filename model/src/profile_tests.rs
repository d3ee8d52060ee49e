//! The profile: its borders, the ramp's end, the order of the places, and the
//! verdict by points against the one by samples.

use super::*;
use crate::benches::{self, Kind, SMALL};
use crate::random::Random;

fn set(card: &mut Card, start: u16, words: &[u16]) {
    let done = card.write(start, words.len(), words);
    assert_eq!(done.processed, words.len(), "{start:04X}");
}

/// Level 4 of a channel plays table 7 with entry 9 of the scale factors and
/// entry 5 of the offsets.
fn put_ramp(card: &mut Card, channel: u16, scale: u16, offset: u16, table: &[u16]) {
    let base = channel << 12;
    set(card, base + 0x380, table);
    set(card, base + 0x804, &[7]);
    set(card, base + 0x844, &[9]);
    set(card, base + 0x869, &[scale]);
    set(card, base + 0x884, &[5]);
    set(card, base + 0x8A5, &[offset]);
}

/// The point at which such a ramp breaks the profile.
fn breaks_on(edition: Edition, scale: u16, offset: u16, table: &[u16]) -> Option<usize> {
    let mut card = Card::fresh(edition);
    put_ramp(&mut card, 2, scale, offset, table);
    let broken = check(&card)?;
    assert_eq!((broken.channel, broken.level, broken.table), (2, 4, 7));
    Some(broken.point)
}

/// The same in both editions.
fn breaks(scale: u16, offset: u16, table: &[u16]) -> Option<usize> {
    let [one, two] = Edition::BOTH.map(|edition| breaks_on(edition, scale, offset, table));
    assert_eq!(one, two, "{scale:04X} {offset:04X}");
    one
}

#[test]
fn a_reset_bench_passes() {
    for edition in Edition::BOTH {
        assert_eq!(check(&Card::fresh(edition)), None);
    }
}

#[test]
fn sums_next_to_both_borders() {
    for (scale, offset, value, passes) in [
        (0x0200, 1, 16_383, true),
        (0x0200, 2, 16_383, false),
        (0x0200, 0, 0xC000, true),
        (0x0200, 0xFFFF, 0xC000, false),
        // Only the sum after the offset is checked.
        (0x0200, 0x8001, 0x7FFF, true),
        (0x0200, 0x8002, 0x7FFF, false),
        (0xFF00, 0, 0x8000, false),
        (0xFF00, 0xFFFF, 0x8000, true),
        (0x8000, 0, 256, true),
        (0x8000, 0xFFFF, 256, false),
        // −128.5 and −1 are floored before the offset is added.
        (0x0080, 0x8081, 0xFEFF, true),
        (0x0080, 0x8080, 0xFEFF, false),
        (0x0001, 0x8000, 0xFFFF, false),
        (0x0000, 0x8000, 0x8000, true),
    ] {
        let broken = breaks(scale, offset, &[value, 0]);
        assert_eq!(broken.is_none(), passes, "{scale:04X} {offset:04X}");
    }
}

#[test]
fn the_end_counts_and_what_is_beyond_does_not() {
    let out = 0x4000;
    assert_eq!(breaks(0x0200, 0, &[0, 1, out, 0]), Some(1));
    assert_eq!(breaks(0x0200, 0, &[0, 0, out, 0]), None);
    assert_eq!(breaks(0x0200, 0, &[0, 0, out, 1, out, 1]), None);
    assert_eq!(breaks(0x0200, 0, &[out, 0]), Some(0));
    assert_eq!(breaks(0x0200, 0, &[0, 1, 0, 1, out, 9, out, 0]), Some(2));
}

#[test]
fn point_63_ends_a_ramp_whatever_its_step() {
    for step in [0, 1, 65_535] {
        let mut table = [0, 1].repeat(63);
        table.extend([0x4000, step]);
        assert_eq!(breaks(0x0200, 0, &table), Some(63));
        table[2 * 62 + 1] = 0;
        assert_eq!(breaks(0x0200, 0, &table), None);
        table[2 * 62] = 0x4000;
        assert_eq!(breaks(0x0200, 0, &table), Some(62));
    }
}

#[test]
fn the_first_channel_then_the_first_level() {
    let mut card = Card::fresh(Edition::One);
    for (channel, level, expected) in [
        (3, 0, (3, 0)),
        (1, 31, (1, 31)),
        (1, 30, (1, 30)),
        (2, 0, (1, 30)),
        (0, 31, (0, 31)),
        (1, 0, (0, 31)),
        (0, 7, (0, 7)),
    ] {
        let base = channel << 12;
        set(&mut card, base + 0x080, &[0x7FFF, 0]);
        set(&mut card, base + 0x861, &[0x0200]);
        set(&mut card, base + 0x800 + level, &[1]);
        set(&mut card, base + 0x840 + level, &[1]);
        let broken = check(&card).unwrap();
        assert_eq!((broken.channel, broken.level), expected);
    }
}

/// Neither enables nor triggers, modes or wave tables make a difference.
#[test]
fn the_settings_alone_decide() {
    let mut card = Card::fresh(Edition::One);
    put_ramp(&mut card, 1, 0x0200, 0, &[0, 1, 0x4000, 0]);
    let broken = check(&card);
    assert!(broken.is_some());
    for (address, word) in [
        (0x1A00, 1),
        (0x1A01, 1),
        (0x1A01, 5),
        (0x4020, 0x10),
        (0x4200, 1),
        (0x4202, 4),
        (0x1A39, 0),
    ] {
        set(&mut card, address, &[word]);
        assert_eq!(check(&card), broken, "{address:04X}");
    }
    for _ in 0..100 {
        card.tick();
    }
    assert_eq!(check(&card), broken);
    set(&mut card, 0x1869, &[0x0100]);
    assert_eq!(check(&card), None);
}

/// Table 0 is fixed at 0, so it has the offset as its only sum.
#[test]
fn levels_without_a_table_of_their_own_pass() {
    let mut card = Card::fresh(Edition::One);
    for base in [0x0000, 0x1000, 0x2000, 0x3000] {
        set(&mut card, base + 0x840, &[1; 32]);
        set(&mut card, base + 0x880, &[1; 32]);
        set(&mut card, base + 0x861, &[0x8000]);
        set(&mut card, base + 0x8A1, &[0x8000]);
    }
    assert_eq!(check(&card), None);
}

#[test]
fn verdicts_in_words() {
    let mut card = Card::fresh(Edition::One);
    let passes = "the bench passes: every sum of every ramp is in range\n";
    assert_eq!(verdict(&card), passes.as_bytes());
    let mut table = [0, 1].repeat(20);
    table.extend([0x7FFF, 0]);
    put_ramp(&mut card, 3, 0x0400, 0, &table);
    let breaks = "the bench breaks the profile, first at channel 3, level 4: \
        the sum at point 20 of table 7 is out of range\n";
    assert_eq!(verdict(&card), breaks.as_bytes());
}

/// The request's words over samples: whether every sample of a ramp has a sum
/// in range, f being an exact fraction with the divisor `steps`.
fn passes_by_samples(edition: Edition, ramp: Ramp, table: &[u16]) -> bool {
    let value = |point: usize| signed(table[2 * point]);
    let mut point = 0;
    loop {
        let bottom = i64::from(table[2 * point + 1]);
        if point == 63 || bottom == 0 {
            let f = Fraction::whole(value(point));
            return ramp.sample(edition, f).is_some();
        }
        let rise = value(point + 1) - value(point);
        for left in (1..=bottom).rev() {
            let top = value(point + 1) * bottom - rise * left;
            if ramp.sample(edition, Fraction { top, bottom }).is_none() {
                return false;
            }
        }
        point += 1;
    }
}

/// The first channel and level with a sample out of range.
fn check_by_samples(card: &Card) -> Option<(usize, usize)> {
    let places = (0..CHANNELS).flat_map(|channel| (0..LEVELS).map(move |level| (channel, level)));
    places.into_iter().find(|&(channel, level)| {
        let ramp = card.ramp(channel, level);
        !passes_by_samples(card.edition(), ramp, card.table_of(channel, ramp))
    })
}

/// The first channel and level whose ramp, triggered and played to its end,
/// has a sum out of range.
fn check_by_playing(card: &Card) -> Option<(usize, usize)> {
    let mut first = None;
    for level in (0..LEVELS).rev() {
        let mut card = card.clone();
        set(&mut card, 0x4202, &[level as u16]);
        loop {
            card.tick();
            let looks = card.looks();
            for (channel, look) in looks.iter().enumerate().rev() {
                let over = look.given.is_some_and(|given| given.sum_overflowed);
                if over && first.is_none_or(|place| place >= (channel, level)) {
                    first = Some((channel, level));
                }
            }
            if !looks
                .iter()
                .any(|look| look.countdown > 0 || look.ramp_runs)
            {
                break;
            }
        }
    }
    first
}

/// A small bench with short steps, every channel enabled and without delays.
fn small_bench(edition: Edition, random: &mut Random, kind: Kind) -> Card {
    let mut card = Card::fresh(edition);
    for mut write in benches::channels(random, kind, &SMALL) {
        if matches!(write.start & 0x0FFF, 0x080..=0x7FF) {
            for step in write.words.iter_mut().skip(1).step_by(2) {
                *step = (*step).min(1 + *step % 7);
            }
        }
        set(&mut card, write.start, &write.words);
    }
    for base in [0x0000, 0x1000, 0x2000, 0x3000] {
        set(&mut card, base + 0x8E0, &[0; 32]);
        set(&mut card, base + 0xA00, &[1]);
    }
    card
}

/// The points decide as the samples do, and as the card itself plays them; in
/// both editions they decide the same.
#[test]
fn points_and_samples_and_the_card_agree() {
    for index in 0..150 {
        let kind = Kind::ALL[(index % 3) as usize];
        let verdicts = Edition::BOTH.map(|edition| {
            let card = small_bench(edition, &mut Random::of(5, index), kind);
            let by_points = check(&card).map(|broken| (broken.channel, broken.level));
            assert_eq!(by_points.is_none(), kind == Kind::Passes, "{index}");
            assert_eq!(check_by_samples(&card), by_points, "{index} {edition:?}");
            if index % 3 == 0 || index % 5 == 0 {
                assert_eq!(check_by_playing(&card), by_points, "{index} {edition:?}");
            }
            by_points
        });
        assert_eq!(verdicts[0], verdicts[1], "{index}");
    }
}

/// A single ramp of some random points with any words near the borders.
#[test]
fn points_and_samples_agree_on_any_table() {
    let mut random = Random::of(6, 0);
    let mut broken = 0;
    for index in 0..20_000 {
        let size = random.pick(&[0x0001, 0x00FF, 0x7FFF]);
        let words: Vec<u16> = (0..random.within(1, 12))
            .flat_map(|_| [random.word(), random.pick(&[0, 1, 2, 3, 9])])
            .collect();
        let mut table = words.repeat(64);
        table.truncate(128);
        let any = random.word();
        let ramp = Ramp {
            table: 1,
            scale: random.pick(&[any, 0x0100, 0x0101, 0xFEFF, 0x00C0]),
            offset: random.word() & size,
        };
        for edition in Edition::BOTH {
            let by_points = first_out_of_range(edition, ramp, &table);
            let by_samples = passes_by_samples(edition, ramp, &table);
            assert_eq!(by_points.is_none(), by_samples, "{index} {edition:?}");
            broken += u32::from(by_points.is_some());
        }
    }
    assert!((10_000..30_000).contains(&broken), "{broken}");
}
