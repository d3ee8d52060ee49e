//! The two editions: where they agree, how far apart they are elsewhere, and
//! which card is of which.

use super::tests::{bench_on, get, output, samples_of, samples_on, set, set_sum, set_table, ticks};
use super::*;
use crate::channel::Ramp;
use crate::edition::{bound, Fraction};
use crate::map::{Row, CARD_ROWS, CHANNEL_ROWS};
use crate::program::{self, Lines, Program};
use crate::random::Random;
use crate::saved;
use crate::sine::{signed, WAVE_WORDS};

const EXAMPLE: [(i16, u16); 2] = [(0, 3), (10, 0)];

/// The samples of a ramp without an offset, in edition 1 and in edition 2.
fn in_both(points: &[(i16, u16)], scale: u16) -> [Vec<i16>; 2] {
    Edition::BOTH.map(|edition| samples_on(edition, points, scale, 0))
}

#[test]
fn the_worked_example() {
    let [one, two] = in_both(&EXAMPLE, 0x0200);
    assert_eq!((one[2], two[2]), (13, 12));
    assert_eq!(one, [0, 6, 13, 20]);
    assert_eq!(two, [0, 6, 12, 20]);
}

/// Both cuts are toward minus infinity, whatever the signs of f and of S.
#[test]
fn both_cuts_are_floors() {
    let falling = [(0, 3), (-10, 0)];
    for (points, scale, one, two) in [
        (&falling, 0x0200, [0, -7, -14, -20], [0, -8, -14, -20]),
        (&EXAMPLE, 0xFE00, [0, -7, -14, -20], [0, -6, -12, -20]),
        (&falling, 0xFE00, [0, 6, 13, 20], [0, 8, 14, 20]),
        (&EXAMPLE, 0x0180, [0, 5, 10, 15], [0, 4, 9, 15]),
        (&falling, 0x0180, [0, -5, -10, -15], [0, -6, -11, -15]),
        (&EXAMPLE, 0xFF00, [0, -4, -7, -10], [0, -3, -6, -10]),
    ] {
        assert_eq!(in_both(points, scale), [one, two], "{scale:04X}");
    }
}

/// The range is checked of the last sum alone, made as the edition makes it.
#[test]
fn the_range_is_checked_after_the_edition() {
    for (from, to, scale, offset, overflows) in [
        (16_383, 16_384, 0x0200, 1, [2, 1]),
        (-16_384, -16_383, 0x0200, -1, [2, 3]),
        (-16_384, -16_383, 0xFE00, 0, [1, 3]),
        (16_383, 16_384, 0xFE00, -1, [2, 1]),
        (16_383, 16_384, 0x0200, 0, [1, 1]),
    ] {
        let counts = Edition::BOTH.map(|edition| {
            let mut card = bench_on(edition);
            set_table(&mut card, &[(from, 3), (to, 0)]);
            set_sum(&mut card, scale, offset);
            samples_of(&mut card);
            get(&card, 0x0A39)
        });
        assert_eq!(counts, overflows, "{from} {scale:04X} {offset}");
    }
}

/// An amplitude is a ramp's sum; the sine's own floor is the same in both.
#[test]
fn the_sine_of_both() {
    for (word, one, two) in [(0x4000, 13, 12), (0x2000, 6, 6), (0xE000, -7, -6)] {
        let outputs = Edition::BOTH.map(|edition| {
            let mut card = bench_on(edition);
            set_table(&mut card, &EXAMPLE);
            set_sum(&mut card, 0x0200, 0);
            set(&mut card, 0x0A01, 1);
            assert_eq!(card.wave_table(0, &[word; WAVE_WORDS]), Number::Done);
            samples_of(&mut card)[2]
        });
        assert_eq!(outputs, [one, two], "{word:04X}");
    }
}

/// Edition 1 minus edition 2, before the range check.
fn apart(scale: u16, f: Fraction) -> i64 {
    let ramp = Ramp {
        table: 1,
        scale,
        offset: 0x1234,
    };
    ramp.sum(Edition::One, f) - ramp.sum(Edition::Two, f)
}

fn is_within(scale: u16, apart: i64) -> bool {
    apart.signum() * signed(scale).signum() >= 0 && apart.abs() <= bound(scale).abs()
}

#[test]
fn factors_rounded_up() {
    for (scale, up) in [
        (0x0000, 0),
        (0x0001, 1),
        (0x0100, 1),
        (0x0101, 2),
        (0x7FFF, 128),
        (0xFFFF, -1),
        (0xFF00, -1),
        (0xFEFF, -2),
        (0x8000, -128),
    ] {
        assert_eq!(bound(scale), up, "{scale:04X}");
    }
    assert!(is_within(0x0103, 2) && !is_within(0x0103, 3) && !is_within(0x0103, -1));
    assert!(is_within(0xFEFD, -2) && !is_within(0xFEFD, -3) && !is_within(0xFEFD, 1));
    assert!(is_within(0, 0) && !is_within(0, 1) && !is_within(0, -1));
}

/// Between points as well as at them, for both signs of S and of f.
#[test]
fn fractions_at_both_ends_of_the_bound() {
    for (scale, top, bottom, expected) in [
        (0x0103, 86 * 130 - 1, 130, 2),
        (0x0103, -170 * 130 - 1, 130, 2),
        (0x0103, 86 * 129 - 1, 129, 1),
        (0x0103, 1, 2, 0),
        (0xFEFD, 129, 130, -2),
        (0xFEFD, 85, 86, -1),
        (0xFEFD, -255 * 130 - 1, 130, -2),
        (0xFEFD, 3, 2, 0),
        (0x0003, 171, 2, 1),
        (0x0003, 1, 2, 0),
        (0xFFFF, 1, 2, -1),
        (0xFFFF, 3, 2, 0),
        (0x7FFF, 2 * 130 - 1, 130, 128),
        (0x8000, 129, 130, -128),
        (0x0000, 1, 2, 0),
        (0x0100, 1, 2, 0),
        (0xFF00, 1, 2, -1),
    ] {
        let f = Fraction { top, bottom };
        assert_eq!(apart(scale, f), expected, "{scale:04X} {top}/{bottom}");
    }
}

/// The same four ends as a card gives them, sample 1 being next to a whole f
/// or half between two.
#[test]
fn samples_at_both_ends_of_the_bound() {
    let [one, two] = in_both(&[(86, 130), (85, 0)], 0x0103);
    assert_eq!((one[1], two[1]), (87, 85));
    assert_eq!((one[2], two[2]), (86, 85));
    assert_eq!(one[130], two[130]);
    let [one, two] = in_both(&[(1, 130), (0, 0)], 0xFEFD);
    assert_eq!((one[1], two[1]), (-2, 0));
    assert_eq!((one[2], two[2]), (-1, 0));
    let [one, two] = in_both(&[(1, 2), (2, 0)], 0xFEFD);
    assert_eq!((one[1], two[1]), (-2, -2));
    let [one, two] = in_both(&[(0, 2), (1, 0)], 0x0103);
    assert_eq!((one[1], two[1]), (0, 0));
}

const FACTORS: [u16; 14] = [
    0x0000, 0x0001, 0x0003, 0x0080, 0x00FF, 0x0100, 0x0101, 0x0103, 0x0200, 0x7FFF, 0x8000, 0xFEFD,
    0xFF00, 0xFFFF,
];

/// Every V with some factors, and some V with every factor; a point is also
/// the first sample of a segment, whose m is its time step.
#[test]
fn the_editions_agree_at_every_point() {
    let agree = |scale, value: u16| {
        let value = signed(value);
        let (top, bottom) = (value * 7, 7);
        assert_eq!(
            apart(scale, Fraction::whole(value)),
            0,
            "{scale:04X} {value}"
        );
        assert_eq!(
            apart(scale, Fraction { top, bottom }),
            0,
            "{scale:04X} {value}"
        );
    };
    for word in 0..=u16::MAX {
        FACTORS.iter().for_each(|&scale| agree(scale, word));
        FACTORS.iter().for_each(|&value| agree(word, value));
    }
}

/// Any f that a segment of a table can have.
fn any_fraction(random: &mut Random) -> Fraction {
    let (any, few) = (random.within(1, u16::MAX), random.within(1, 9));
    let steps = random.pick(&[any, few, few, 130, 65_535]);
    let left = random.within(1, steps);
    let left = random.pick(&[left, left, 1, steps - 1]);
    let from = signed(random.word());
    let near = from + i64::from(random.below(7)) - 3;
    let far = signed(random.word());
    let to = random.pick(&[far, near.clamp(-32_768, 32_767)]);
    let bottom = i64::from(steps);
    Fraction {
        top: to * bottom - (to - from) * i64::from(left),
        bottom,
    }
}

#[test]
fn the_editions_agree_with_factor_one() {
    let mut random = Random::of(9, 0);
    let mut between = 0;
    for _ in 0..100_000 {
        let f = any_fraction(&mut random);
        assert_eq!(apart(0x0100, f), 0, "{f:?}");
        between += u32::from(!f.is_whole());
    }
    assert!(between > 50_000, "{between}");
}

/// With any factor and any f the editions are no further apart than the bound,
/// and on the side of the factor's sign.
#[test]
fn the_editions_are_within_the_bound() {
    let mut random = Random::of(9, 1);
    let [mut none, mut some, mut whole] = [0; 3];
    for _ in 0..300_000 {
        let any = random.word();
        let scale = random.pick(&[any, any, FACTORS[usize::from(any % 14)]]);
        let f = any_fraction(&mut random);
        let apart = apart(scale, f);
        assert!(is_within(scale, apart), "{scale:04X} {f:?}: {apart}");
        match apart {
            0 => none += 1,
            apart if apart == bound(scale) => whole += 1,
            _ => some += 1,
        }
    }
    assert!(
        none > 1000 && some > 1000 && whole > 1000,
        "{none} {some} {whole}"
    );
}

/// The greatest size that the editions are apart by, over the fractions next
/// to a whole number.
fn furthest_apart(scale: u16) -> i64 {
    let bottom = 65_535;
    let apart = |whole: i64| {
        let top = whole * bottom - 1;
        apart(scale, Fraction { top, bottom }).abs()
    };
    (0..256).map(apart).max().unwrap()
}

/// A negative factor always reaches the bound. A positive one does so where it
/// is past a multiple of 256 by more than the power of two that divides it;
/// else it stays one below.
#[test]
fn which_factors_reach_the_bound() {
    for scale in (0..=u16::MAX).step_by(7) {
        let over = scale % 256;
        let power = if over == 0 {
            256
        } else {
            1 << over.trailing_zeros()
        };
        let misses = signed(scale) > 0 && (over == 0 || over == power);
        let reached = bound(scale).abs() - i64::from(misses);
        assert_eq!(furthest_apart(scale), reached, "{scale:04X}");
    }
}

/// A card on which much goes on: a sine runs freely on channel 0, a ramp runs
/// on channel 1, and a trigger is pending.
fn used(edition: Edition) -> Card {
    let mut card = bench_on(edition);
    set_table(&mut card, &EXAMPLE);
    set_sum(&mut card, 0x7FFF, 32_350);
    set(&mut card, 0x0A01, 5);
    for (address, value) in [(0x1801, 2), (0x1841, 1), (0x1861, 0x0203)] {
        set(&mut card, address, value);
    }
    card.write(0x1100, 4, &[5, 90, 7, 0]);
    set(&mut card, 0x1A00, 1);
    set(&mut card, 0x2A04, 77);
    set(&mut card, 0x4008, 0x10);
    set(&mut card, 0x4200, 1);
    assert_eq!(card.wave_table(0, &[0x4000; WAVE_WORDS]), Number::Done);
    set(&mut card, 0x4202, 1);
    ticks(&mut card, 75);
    for base in [0x0000, 0x1000, 0x2000, 0x3000] {
        set(&mut card, base + 0x8E1, 500);
    }
    card.event(0x10);
    card
}

/// Every word of two cards, hidden ones too.
pub(super) fn is_same(one: &Card, other: &Card) -> bool {
    format!("{one:?}") == format!("{other:?}")
}

#[test]
fn a_reset_card_is_a_fresh_one_of_its_edition() {
    for edition in Edition::BOTH {
        let mut card = used(edition);
        let fresh = Card::fresh(edition);
        assert!(!is_same(&card, &fresh));
        assert!(card.pending().is_some());
        card.reset();
        assert_eq!(card.edition(), edition);
        assert!(is_same(&card, &fresh));
    }
    let [one, two] = Edition::BOTH.map(Card::fresh);
    assert!(!is_same(&one, &two));
}

/// The example's third sample, after its bench was written anew.
fn example_again(card: &mut Card) -> i16 {
    for (address, value) in [(0x0801, 1), (0x0841, 1), (0x0A00, 1), (0x0861, 0x0200)] {
        set(card, address, value);
    }
    set_table(card, &EXAMPLE);
    samples_of(card)[2]
}

#[test]
fn a_reset_keeps_the_edition_and_a_fresh_card_replaces_it() {
    let mut card = Card::fresh(Edition::Two);
    assert_eq!(example_again(&mut card), 12);
    card.reset();
    assert_eq!(output(&card), 0);
    assert_eq!(example_again(&mut card), 12);
    card = Card::fresh(Edition::One);
    assert_eq!(example_again(&mut card), 13);
    card.reset();
    assert_eq!(example_again(&mut card), 13);
}

/// The rows of every channel and of the card, each with its base.
pub(super) fn rows() -> Vec<(u16, &'static Row)> {
    let card = CARD_ROWS.iter().map(|row| (0, row));
    let rows = (0..4).flat_map(|base| CHANNEL_ROWS.iter().map(move |row| (base << 12, row)));
    rows.chain(card).collect()
}

/// The editions have all words in common but outputs and overflow counts.
#[test]
fn nothing_but_samples_depends_on_the_edition() {
    let [mut one, mut two] = Edition::BOTH.map(used);
    let rows = rows();
    let mut differed = 0;
    for _ in 0..700 {
        for &(base, &(first, last, ..)) in &rows {
            let count = usize::from(last - first) + 1;
            let [mut left, mut right] = [vec![0; count], vec![0; count]];
            one.read(base + first, count, &mut left);
            two.read(base + first, count, &mut right);
            if [0xA04, 0xA39].contains(&first) {
                differed += u32::from(left != right);
            } else {
                assert_eq!(left, right, "{:04X}", base + first);
            }
        }
        one.tick();
        two.tick();
    }
    assert!(differed > 100, "{differed}");
}

#[test]
fn saved_lines_carry_no_edition() {
    let [one, two] = Edition::BOTH.map(used);
    let lines = saved::lines(&two);
    assert_eq!(lines, saved::lines(&one));
    assert_ne!(lines, saved::lines(&Card::fresh(Edition::Two)));
    // Played on a card of either edition they leave the same settings.
    for edition in Edition::BOTH {
        let mut card = Card::fresh(edition);
        for line in lines.split_inclusive(|&byte| byte == b'\n') {
            let mut answer = Vec::new();
            let line = line.strip_suffix(b"\n").unwrap();
            Program::Bench.answer(&mut card, line, &mut answer).unwrap();
            assert!(answer.starts_with(b"8100"));
        }
        assert_eq!(saved::lines(&card), lines);
        assert_eq!(card.edition(), edition);
    }
}

const EXAMPLE_LINES: &str = "0108010001\n0108410001\n0108610200\n01008000000003000A0000\n\
    010A000001\n0142020001\n03001E\n";

/// The outputs of all answers to ticks.
fn outputs(program: Program, lines: &str) -> Vec<String> {
    let answers = program::answers(program, lines.as_bytes());
    let ticks = answers.lines().filter_map(|line| line.strip_prefix("83"));
    ticks.map(|outputs| outputs[..4].to_string()).collect()
}

/// Every program begins on a card of edition 1, and the line program stays
/// there; so does the card that is saved or checked.
#[test]
fn the_line_program_is_of_edition_1() {
    for program in [Program::Rampcard, Program::Bench] {
        assert_eq!(outputs(program, EXAMPLE_LINES), ["000D"], "{program:?}");
    }
    let lines = format!("1702\n{EXAMPLE_LINES}");
    assert_eq!(outputs(Program::Rampcard, &lines), ["000D"]);
    assert_eq!(outputs(Program::Bench, &lines), ["000C"]);
    for (program, edition) in [
        (Program::Rampcard, Edition::One),
        (Program::Bench, Edition::Two),
    ] {
        let mut played = Lines::new(program);
        played.take(lines.as_bytes(), &mut Vec::new()).unwrap();
        let card = played.finish(&mut Vec::new()).unwrap();
        assert_eq!(card.edition(), edition);
    }
}

#[test]
fn editions_by_frames() {
    for (between, third) in [
        ("18\n", "000D"),
        ("1701\n", "000D"),
        ("1702\n", "000C"),
        ("1702\n18\n", "000C"),
        ("1702\n18\n18\n", "000C"),
        ("1702\n1701\n", "000D"),
        ("1702\n1701\n18\n", "000D"),
        ("1702\n18\n1701\n", "000D"),
        ("1702\n1703\n17\n1700\n170101\n", "000C"),
    ] {
        let lines = format!("{EXAMPLE_LINES}{between}{EXAMPLE_LINES}");
        assert_eq!(
            outputs(Program::Bench, &lines),
            ["000D", third],
            "{between}"
        );
    }
}
