//! A bench's settings saved as lines: write frames of the line program.

use crate::card::{Card, CHANNELS};
use crate::line::{digits, MAX_WORDS};
use crate::map::{holds_settings, Number, Region, Row, CARD_ROWS, CHANNEL_ROWS};

/// The words that one line carries.
#[derive(Clone, Copy, Debug)]
struct Part {
    channel: usize,
    region: Region,
    /// The address of the first of them, and its number in the region.
    start: u16,
    index: usize,
    words: usize,
}

impl Part {
    /// The words of a channel's or of the card's row, from its first that is
    /// not fixed.
    fn of_row(channel: usize, &(first, last, _, region): &Row) -> Part {
        let index = region.fixed_words();
        Part {
            channel,
            region,
            start: ((channel as u16) << 12) + first + index as u16,
            index,
            words: usize::from(last - first) + 1 - index,
        }
    }

    /// The same words, 64 a line; the last line may be shorter.
    fn lines(self) -> impl Iterator<Item = Part> {
        (0..self.words).step_by(MAX_WORDS).map(move |done| Part {
            start: self.start + done as u16,
            index: self.index + done,
            words: MAX_WORDS.min(self.words - done),
            ..self
        })
    }

    /// The bytes of the line: 01, the start, the words and the LF.
    fn length(&self) -> usize {
        2 + 4 + 4 * self.words + 1
    }
}

/// The lines in address order: the channels' regions, then the card's.
fn parts() -> impl Iterator<Item = Part> {
    let of_channel = |channel| CHANNEL_ROWS.iter().map(move |row| (channel, row));
    (0..CHANNELS)
        .flat_map(of_channel)
        .chain(CARD_ROWS.iter().map(|row| (0, row)))
        .filter(|&(_, row)| holds_settings(row))
        .flat_map(|(channel, row)| Part::of_row(channel, row).lines())
}

/// The bytes of all lines, the same for every card.
pub fn length() -> usize {
    parts().map(|part| part.length()).sum()
}

/// Saves the card's settings at the front of the buffer; the bytes written, or
/// 10 if it is shorter than the lines need, and then it is unchanged.
pub fn save(card: &Card, buffer: &mut [u8]) -> Result<usize, Number> {
    let length = length();
    if buffer.len() < length {
        return Err(Number::ShortBuffer);
    }
    let mut room = buffer;
    let mut words = [0; MAX_WORDS];
    for part in parts() {
        let words = &mut words[..part.words];
        card.copy_settings(part.channel, part.region, part.index, words);
        let (line, rest) = room.split_at_mut(part.length());
        put_line(line, part.start, words);
        room = rest;
    }
    Ok(length)
}

/// The card's saved lines.
pub fn lines(card: &Card) -> Vec<u8> {
    let mut lines = vec![0; length()];
    save(card, &mut lines).expect("the lines have their room");
    lines
}

/// Fills a line's bytes.
fn put_line(line: &mut [u8], start: u16, words: &[u16]) {
    line[..2].copy_from_slice(b"01");
    line[2..6].copy_from_slice(&digits(start));
    for (room, &word) in line[6..].chunks_exact_mut(4).zip(words) {
        room.copy_from_slice(&digits(word));
    }
    line[line.len() - 1] = b'\n';
}

#[cfg(test)]
#[path = "saved_tests.rs"]
mod tests;
