//! The saved lines: their form, what changes them and what does not.

use super::*;
use crate::edition::Edition;
use crate::line::field;
use crate::map::Place;
use crate::program::{self, Program};
use crate::sine::WAVE_WORDS;

fn text(card: &Card) -> String {
    String::from_utf8(lines(card)).unwrap()
}

/// The card that the line program has after an input.
fn played(input: &[u8]) -> Card {
    let mut card = Card::fresh(Edition::One);
    for line in input.split(|&byte| byte == b'\n') {
        let mut answer = Vec::new();
        Program::Rampcard
            .answer(&mut card, line, &mut answer)
            .unwrap();
    }
    card
}

fn set(card: &mut Card, address: u16, value: u16) {
    let done = card.write(address, 1, &[value]);
    assert_eq!((done.number, done.processed), (Number::Done, 1));
}

/// The addresses of all settings but the fixed ones, as the paper lists them.
fn addresses() -> Vec<u16> {
    let mut all = Vec::new();
    for base in [0x0000, 0x1000, 0x2000, 0x3000] {
        all.extend(base + 0x080..=base + 0x7FF);
        all.extend(base + 0x800..=base + 0x81F);
        all.extend(base + 0x840..=base + 0x85F);
        all.extend(base + 0x861..=base + 0x87F);
        all.extend(base + 0x880..=base + 0x89F);
        all.extend(base + 0x8A1..=base + 0x8BF);
        all.extend(base + 0x8E0..=base + 0x8FF);
        all.extend(base + 0x900..=base + 0x97F);
        all.extend([base + 0xA00, base + 0xA01]);
    }
    all.extend(0x4000..=0x40FF);
    all.push(0x4200);
    all
}

/// The first and the last saved word of every region.
fn ends() -> Vec<u16> {
    let rows: Vec<&Row> = CHANNEL_ROWS
        .iter()
        .filter(|row| holds_settings(row))
        .collect();
    let mut ends = Vec::new();
    for channel in 0..CHANNELS {
        for row in &rows {
            let part = Part::of_row(channel, row);
            ends.extend([part.start, part.start + part.words as u16 - 1]);
        }
    }
    ends.extend([0x4000, 0x40FF, 0x4200]);
    ends.dedup();
    ends
}

/// A value that the word takes and that no reset card has there.
fn another(address: u16) -> u16 {
    match Place::find(address).unwrap().region {
        Region::RampMap => 15,
        Region::ScaleMap | Region::OffsetMap => 31,
        Region::FrequencyMap | Region::PhaseMap => 31,
        Region::Enable | Region::ClockEnable => 1,
        Region::Mode => 5,
        Region::TriggerMap => 0xFF,
        _ => 0xABCD,
    }
}

#[test]
fn lines_and_bytes() {
    assert_eq!((parts().count(), length()), (173, 38_079));
    let text = text(&Card::fresh(Edition::One));
    assert_eq!(text.lines().count(), 173);
    assert!(text.ends_with("\n0142000000\n"));
    let addresses = addresses();
    assert_eq!(addresses.len(), 9217);
    assert_eq!(173 * 7 + 4 * addresses.len(), 38_079);
}

/// Every line is a frame of up to 64 words; together they name every setting
/// once, in address order.
#[test]
fn every_setting_once_in_address_order() {
    let text = text(&Card::fresh(Edition::One));
    let mut named = Vec::new();
    for line in text.lines() {
        assert!(line.starts_with("01") && line.len() % 4 == 2);
        let start = field(&line.as_bytes()[2..6]).unwrap();
        let words = (line.len() - 6) / 4;
        assert!((1..=64).contains(&words));
        named.extend((0..words as u16).map(|word| start + word));
    }
    assert_eq!(named, addresses());
}

#[test]
fn the_lines_of_a_reset_card() {
    let text = text(&Card::fresh(Edition::One));
    let lines: Vec<&str> = text.lines().collect();
    let of = |start: &str, word: &str, words| format!("01{start}{}", word.repeat(words));
    assert_eq!(lines[0], of("0080", "0000", 64));
    assert_eq!(lines[1], of("00C0", "0000", 64));
    assert_eq!(lines[29], of("07C0", "0000", 64));
    assert_eq!(lines[30], of("0800", "0000", 32));
    assert_eq!(lines[32], of("0861", "0100", 31));
    assert_eq!(lines[34], of("08A1", "0000", 31));
    assert_eq!(lines[39], of("0960", "0000", 32));
    assert_eq!(lines[40..42], ["010A000000", "010A010000"]);
    assert_eq!(lines[42], of("1080", "0000", 64));
    assert_eq!(lines[167], "013A010000");
    assert_eq!(lines[168], of("4000", "00FE", 64));
    assert_eq!(lines[171], of("40C0", "00FE", 64));
    assert_eq!(lines[172], "0142000000");
}

#[test]
fn a00_comes_before_a01_each_in_a_line_of_its_own() {
    let mut card = Card::fresh(Edition::One);
    for base in [0x0000, 0x1000, 0x2000, 0x3000] {
        set(&mut card, base + 0xA00, 1);
        set(&mut card, base + 0xA01, 5);
    }
    let text = text(&card);
    for channel in 0..4 {
        let two = format!("\n01{channel}A000001\n01{channel}A010005\n");
        assert!(text.contains(&two), "{channel}");
    }
}

#[test]
fn refused_exactly_if_the_buffer_is_too_short() {
    let card = Card::fresh(Edition::One);
    for length in [0, 1, 266, 38_078] {
        let mut buffer = vec![0x55; length];
        assert_eq!(save(&card, &mut buffer), Err(Number::ShortBuffer));
        assert!(buffer.iter().all(|&byte| byte == 0x55), "{length}");
    }
    assert_eq!(Number::ShortBuffer as u8, 10);
    for length in [38_079, 38_080, 65_536] {
        let mut buffer = vec![0x55; length];
        assert_eq!(save(&card, &mut buffer), Ok(38_079));
        assert_eq!(buffer[..38_079], lines(&card));
        assert!(buffer[38_079..].iter().all(|&byte| byte == 0x55));
    }
}

/// Fed to a reset card the lines are all answered 0 and leave the same lines.
fn check_round_trip(card: &Card) {
    let saved = lines(card);
    let answers = program::answers(Program::Rampcard, &saved);
    assert_eq!(answers.lines().count(), 173);
    assert!(answers.lines().all(|answer| answer.starts_with("8100")));
    let again = played(&saved);
    assert_eq!(lines(&again), saved);
    let mut words = [[0; 64]; 2];
    for part in parts() {
        card.read(part.start, part.words, &mut words[0]);
        again.read(part.start, part.words, &mut words[1]);
        assert_eq!(words[0], words[1], "{:04X}", part.start);
    }
}

#[test]
fn round_trips_at_both_ends_of_every_region() {
    assert_eq!(ends().len(), 4 * (11 * 2 + 2) + 3);
    let mut all = Card::fresh(Edition::One);
    for address in ends() {
        let mut card = Card::fresh(Edition::One);
        set(&mut card, address, another(address));
        check_round_trip(&card);
        // One level may hold an event, so the last slot has another one.
        let value = if address == 0x40FF {
            0x10
        } else {
            another(address)
        };
        set(&mut all, address, value);
    }
    check_round_trip(&all);
}

/// Words that differ wherever their region lets them, the events among them on
/// the last levels, and a ramp that runs.
#[test]
fn a_round_trip_of_a_full_bench() {
    let mut card = Card::fresh(Edition::One);
    for (n, address) in (0_u16..).zip(addresses()) {
        let value = match Place::find(address).unwrap().region {
            Region::RampMap => n % 16,
            Region::ScaleMap | Region::OffsetMap => n % 32,
            Region::FrequencyMap | Region::PhaseMap => n % 32,
            Region::Enable | Region::ClockEnable => 1,
            Region::Mode => 4,
            Region::TriggerMap => 0xFF - (address & 0xFF),
            _ => n.wrapping_mul(40_503),
        };
        set(&mut card, address, value);
    }
    set(&mut card, 0x4202, 31);
    for _ in 0..100 {
        card.tick();
    }
    check_round_trip(&card);
}

/// Two cards that differ in one setting differ in the digits of that word
/// alone, and no two words have the same digits.
#[test]
fn every_setting_has_its_own_place_in_the_lines() {
    let reset = lines(&Card::fresh(Edition::One));
    let mut end = 0;
    for address in addresses() {
        let mut card = Card::fresh(Edition::One);
        set(&mut card, address, another(address));
        let saved = lines(&card);
        let differing: Vec<usize> = (0..saved.len())
            .filter(|&at| saved[at] != reset[at])
            .collect();
        let (first, last) = (differing[0], differing[differing.len() - 1]);
        // A word's digits begin two bytes after a multiple of four of its line.
        let line = saved[..first].iter().rposition(|&byte| byte == b'\n');
        let in_line = first - line.map_or(0, |lf| lf + 1);
        let word = first - (in_line - 2) % 4;
        assert!(word >= end && last < word + 4, "{address:04X}");
        assert_eq!(field(&saved[word..word + 4]), Some(another(address)));
        end = word + 4;
    }
    assert_eq!(end, reset.len() - 1);
}

#[test]
fn outputs_counts_and_triggers_change_no_line() {
    // Level 1 plays table 1 on every channel, and its sums overflow.
    let frames = "0100807FFF00037FFF0000\n0108010001\n0108410001\n0108610200\n010A000001\n\
        0140080010\n0142000001\n";
    let mut card = played(frames.as_bytes());
    let saved = lines(&card);
    for address in [0x0A04, 0x1A04, 0x3A04, 0x0A39, 0x4220, 0x423F, 0x4221] {
        set(&mut card, address, 0x1234);
        assert_eq!(lines(&card), saved, "{address:04X}");
    }
    set(&mut card, 0x4201, 0);
    set(&mut card, 0x4202, 1);
    assert_eq!(lines(&card), saved);
    for _ in 0..15 {
        card.tick();
        assert_eq!(lines(&card), saved);
    }
    card.event(0x10);
    for _ in 0..60 {
        card.tick();
    }
    let mut count = [0];
    for (address, expected) in [(0x4221, 2), (0x0A39, 5), (0x4210, 1), (0x4211, 0x10)] {
        card.read(address, 1, &mut count);
        assert_eq!(count, [expected], "{address:04X}");
    }
    assert_eq!(lines(&card), saved);
}

/// "Wave tables aren't saved."
#[test]
fn wave_tables_change_no_line() {
    let mut card = Card::fresh(Edition::One);
    let saved = lines(&card);
    assert_eq!(card.wave_table(2, &[0x4000; WAVE_WORDS]), Number::Done);
    assert_eq!(lines(&card), saved);
}
