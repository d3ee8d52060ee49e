//! Where a transfer stops: the address of the first word not done, for each
//! number, at the ends of regions, and for writes that go on from there.

use super::editions_tests::{is_same, rows};
use super::tests::{bench, get, manual, set, set_table, ticks};
use super::*;

/// The number, the words processed and the address.
fn stop(answer: Answer) -> (Number, usize, u16) {
    (answer.number, answer.processed, answer.address)
}

fn write(card: &mut Card, start: u16, words: &[u16]) -> (Number, usize, u16) {
    stop(card.write(start, words.len(), words))
}

fn read(card: &Card, start: u16, count: usize) -> (Number, usize, u16) {
    stop(card.read(start, count, &mut [0; 64]))
}

/// Channel 0 runs a ramp of 40 ticks, and level 0 holds event 0x10.
fn running() -> Card {
    let mut card = bench();
    set_table(&mut card, &[(0, 4), (400, 0)]);
    set(&mut card, 0x4000, 0x10);
    manual(&mut card, 1);
    ticks(&mut card, 10);
    card
}

#[test]
fn each_number_of_a_write() {
    for (start, words, stopped) in [
        (0x0802, &[15, 0][..], (Number::Done, 2, 0x0804)),
        (0x3900, &[0; 31], (Number::Done, 31, 0x391F)),
        (0x0802, &[], (Number::BadCount, 0, 0x0802)),
        (0x0820, &[0], (Number::NoRegion, 0, 0x0820)),
        (0x4211, &[0, 0], (Number::NoAccess, 0, 0x4211)),
        (0x07FE, &[1, 0, 1, 1], (Number::Beyond, 2, 0x0800)),
        (0x1A04, &[5, 6], (Number::Beyond, 1, 0x1A05)),
        (0x007F, &[0, 0], (Number::Fixed, 0, 0x007F)),
        (0x0000, &[0; 200], (Number::Fixed, 0, 0x0000)),
        (0x28A0, &[3], (Number::Fixed, 0, 0x28A0)),
        (0x0802, &[2, 16, 3], (Number::BadValue, 1, 0x0803)),
        (0x0A01, &[2], (Number::BadValue, 0, 0x0A01)),
        (0x4008, &[0x11, 0x10, 0x12], (Number::Held, 1, 0x4009)),
        (0x0A04, &[5], (Number::RampRuns, 0, 0x0A04)),
        (0x0A04, &[5, 6], (Number::RampRuns, 0, 0x0A04)),
    ] {
        let answer = write(&mut running(), start, words);
        assert_eq!(answer, stopped, "{start:04X} {words:?}");
    }
}

#[test]
fn each_number_of_a_read() {
    for (start, count, stopped) in [
        (0x0802, 2, (Number::Done, 2, 0x0804)),
        (0x0000, 64, (Number::Done, 64, 0x0040)),
        (0x0802, 0, (Number::BadCount, 0, 0x0802)),
        (0x0802, 65, (Number::BadCount, 0, 0x0802)),
        (0x0A05, 1, (Number::NoRegion, 0, 0x0A05)),
        (0x4202, 2, (Number::NoAccess, 0, 0x4202)),
        (0x41FF, 2, (Number::Beyond, 1, 0x4200)),
        (0x3A33, 9, (Number::Beyond, 1, 0x3A34)),
    ] {
        let answer = read(&running(), start, count);
        assert_eq!(answer, stopped, "{start:04X} {count}");
    }
}

/// What holds of every transfer of some words. Fixed words come first in their
/// region and A04 is one of one word, so that 5 and 8 stop at the start.
fn check(start: u16, count: usize, answer: Answer) {
    let (number, processed, address) = stop(answer);
    let sum = usize::from(start) + processed;
    assert_eq!(usize::from(address), sum, "{start:04X} {number:?}");
    match number {
        Number::Done => assert_eq!(processed, count),
        Number::Beyond => assert!((1..count).contains(&processed)),
        Number::BadValue | Number::Held => assert!(processed < count),
        _ => assert_eq!(processed, 0),
    }
}

#[test]
fn every_start() {
    let mut card = running();
    for start in 0..=0xFFFF {
        for count in [0, 1, 2, 40, 64, 65] {
            let answer = card.read(start, count, &mut [0; 64]);
            check(start, count, answer);
        }
        for words in [&[0][..], &[0xFE, 0xFE], &[1; 40]] {
            let answer = card.write(start, words.len(), words);
            check(start, words.len(), answer);
        }
    }
}

#[test]
fn ends_of_regions() {
    for (base, &(first, last, access, region)) in rows() {
        let (first, last, behind) = (base + first, base + last, base + last + 1);
        let taken = first + region.fixed_words() as u16;
        let value = u16::from(region == Region::TriggerMap) * 0xFE;
        for start in [first, taken, last] {
            let room = usize::from(behind - start);
            let mut words = vec![value; room + 1];
            let whole = [(Number::Done, room, behind), (Number::Beyond, room, behind)];
            let mut card = Card::fresh(Edition::One);
            if access != Access::Write {
                let reads = [room, room + 1].map(|count| stop(card.read(start, count, &mut words)));
                assert_eq!(reads, whole, "{start:04X}");
            }
            if access != Access::Read && start >= taken {
                words.fill(value);
                let writes = [room, room + 1].map(|count| stop(card.write(start, count, &words)));
                assert_eq!(writes, whole, "{start:04X}");
            }
        }
    }
}

#[test]
fn the_last_region_and_the_last_address() {
    let mut card = Card::fresh(Edition::One);
    for (start, done) in [(0x423F, 1), (0x4220, 32)] {
        for (count, number) in [(done, Number::Done), (done + 1, Number::Beyond)] {
            let stopped = (number, done, 0x4240);
            assert_eq!(write(&mut card, start, &vec![9; count]), stopped);
            assert_eq!(read(&card, start, count), stopped);
        }
    }
    let behind = (Number::NoRegion, 0, 0x4240);
    assert_eq!(write(&mut card, 0x4240, &[9]), behind);
    assert_eq!(read(&card, 0x4240, 1), behind);
    let mut many = vec![0; 20_000];
    for (count, number) in [
        (0, Number::BadCount),
        (1, Number::NoRegion),
        (16_381, Number::NoRegion),
        (16_382, Number::BadCount),
        (20_001, Number::BadCount),
    ] {
        let stopped = (number, 0, 0xFFFF);
        assert_eq!(stop(card.write(0xFFFF, count, &many)), stopped);
        assert_eq!(stop(card.read(0xFFFF, count, &mut many)), stopped);
    }
}

/// Writes right words with wrong ones in their places, and on from every
/// address given, with the refused word mended: the last number and address.
fn mended(card: &mut Card, start: u16, right: &[u16], wrong: &[(usize, u16)]) -> (Number, u16) {
    let mut words = right.to_vec();
    for &(at, word) in wrong {
        words[at] = word;
    }
    let mut from = start;
    for &(at, _) in wrong {
        let (number, _, address) = write(card, from, &words[usize::from(from - start)..]);
        assert_ne!(number, Number::Done);
        assert_eq!(address, start + at as u16);
        words[at] = right[at];
        from = address;
    }
    let (number, _, address) = write(card, from, &words[usize::from(from - start)..]);
    (number, address)
}

/// A mended write ends as the right one does, on the same card.
fn check_mended(card: &Card, start: u16, right: &[u16], wrong: &[(usize, u16)]) {
    let (mut one, mut other) = (card.clone(), card.clone());
    let (number, _, address) = write(&mut one, start, right);
    assert_eq!(number, Number::Done);
    let end = mended(&mut other, start, right, wrong);
    assert_eq!(end, (number, address), "{start:04X} {wrong:?}");
    assert!(is_same(&one, &other), "{start:04X} {wrong:?}");
}

#[test]
fn a_map_mended_at_every_place() {
    let card = running();
    let right: Vec<u16> = (0..32).map(|level| level % 16).collect();
    for at in 0..32 {
        for start in [0x0800, 0x3840, 0x1900] {
            check_mended(&card, start, &right, &[(at, 0x0020)]);
        }
    }
    let wrong = [(0, 0x8000), (1, 16), (17, 0xFFFF), (31, 0x0101)];
    check_mended(&card, 0x2800, &right, &wrong);
}

#[test]
fn a_trigger_map_mended_at_some_places() {
    let card = running();
    // The slots of levels 1 to 31, each with an event of its own or none.
    let right: Vec<u16> = (8..=0xFF)
        .map(|slot| if slot == 0x10 { 0xFE } else { slot })
        .collect();
    for at in (0..right.len()).step_by(13) {
        for refused in [0x0010, 0x0110, 0xFF10] {
            check_mended(&card, 0x4008, &right, &[(at, refused)]);
        }
    }
    // The event of a word before, which is another level's, and both numbers.
    let wrong = [(1, 0x10), (2, 0x0100), (16, 0x09), (100, 0x10), (247, 0x10)];
    check_mended(&card, 0x4008, &right, &wrong);
}

#[test]
fn an_output_written_once_the_ramp_rests() {
    let mut card = running();
    let (number, _, address) = write(&mut card, 0x0A04, &[7]);
    assert_eq!((number, address), (Number::RampRuns, 0x0A04));
    ticks(&mut card, 39);
    assert_eq!(write(&mut card, address, &[7]).0, Number::RampRuns);
    ticks(&mut card, 1);
    let stopped = (Number::Done, 1, 0x0A05);
    assert_eq!(write(&mut card, address, &[7]), stopped);
    assert_eq!(get(&card, 0x0A04), 7);
}

/// A write that goes on behind its region does what the regions' own writes do.
#[test]
fn on_into_the_next_region() {
    let mut words = vec![3; 1920 + 32];
    words[1919] = 0;
    let (mut one, mut other) = (running(), running());
    let stopped = write(&mut one, 0x1080, &words);
    assert_eq!(stopped, (Number::Beyond, 1920, 0x1800));
    let rest = write(&mut one, stopped.2, &words[stopped.1..]);
    assert_eq!(rest, (Number::Done, 32, 0x1820));
    write(&mut other, 0x1080, &words[..1920]);
    write(&mut other, 0x1800, &words[1920..]);
    assert!(is_same(&one, &other));
}

/// A read that goes on from every address given sees the words one by one.
#[test]
fn reads_go_on_from_region_to_region() {
    let card = running();
    let mut words = [0xAAAA; 6];
    let mut from = 0x0A30;
    for done in 0..5 {
        let answer = card.read(from, 6 - done, &mut words[done..]);
        from += 1;
        assert_eq!(stop(answer), (Number::Beyond, 1, from));
    }
    assert_eq!(read(&card, from, 1), (Number::NoRegion, 0, 0x0A35));
    let single: Vec<u16> = (0x0A30..0x0A35)
        .map(|address| get(&card, address))
        .collect();
    assert_eq!(words[..5], single);
    assert_eq!(words[5], 0xAAAA);
}
