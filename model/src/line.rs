//! The line program: frames of hexadecimal, one a line, and their answers.

use std::io::{self, Write};

use crate::card::Card;
use crate::map::Answer;

/// The most words a write frame carries and a read frame asks for.
pub const MAX_WORDS: usize = 64;
/// The digits of the longest frame: a write of 64 words.
pub const LONGEST: usize = 2 + 4 + 4 * MAX_WORDS;

/// One frame, as its first byte names it.
#[derive(Debug, PartialEq, Eq)]
pub enum Frame {
    Write { start: u16, words: Vec<u16> },
    Read { start: u16, count: usize },
    Ticks(u16),
    Event(u8),
}

/// The value of a field of at most four digits, 0-9 and A-F only.
pub fn field(digits: &[u8]) -> Option<u16> {
    digits.iter().try_fold(0, |value, &digit| {
        let nibble = match digit {
            b'0'..=b'9' => digit - b'0',
            b'A'..=b'F' => digit - b'A' + 10,
            _ => return None,
        };
        Some(value << 4 | u16::from(nibble))
    })
}

/// The values of fields of the same width that make up all the digits, put
/// into the room; None also if there are more of them than it takes.
pub fn fields<'a>(digits: &[u8], width: usize, room: &'a mut [u16]) -> Option<&'a [u16]> {
    let room = room.get_mut(..digits.len() / width)?;
    if digits.len() % width != 0 {
        return None;
    }
    for (value, digits) in room.iter_mut().zip(digits.chunks_exact(width)) {
        *value = field(digits)?;
    }
    Some(room)
}

/// The four digits of a word.
pub fn digits(word: u16) -> [u8; 4] {
    let digit = |shift: u16| b"0123456789ABCDEF"[usize::from(word >> shift & 0xF)];
    [digit(12), digit(8), digit(4), digit(0)]
}

impl Frame {
    /// The frame of a line without its LF, or None if it is any other line.
    pub fn parse(line: &[u8]) -> Option<Frame> {
        let (kind, rest) = line.split_at_checked(2)?;
        let kind = field(kind)?;
        let width = if kind == 0x04 { 2 } else { 4 };
        match (kind, fields(rest, width, &mut [0; 1 + MAX_WORDS])?) {
            (0x01, &[start, ref words @ ..]) => Some(Frame::Write {
                start,
                words: words.to_vec(),
            }),
            (0x02, &[start, count]) if usize::from(count) <= MAX_WORDS => Some(Frame::Read {
                start,
                count: usize::from(count),
            }),
            (0x03, &[ticks]) => Some(Frame::Ticks(ticks)),
            (0x04, &[event]) => Some(Frame::Event(event as u8)),
            _ => None,
        }
    }

    /// Does the frame on the card and writes its answer.
    pub fn perform(&self, card: &mut Card, out: &mut impl Write) -> io::Result<()> {
        match *self {
            Frame::Write { start, ref words } => {
                let done = card.write(start, words.len(), words);
                put_transfer(out, 0x81, done)?;
                put_words(out, &[])
            }
            Frame::Read { start, count } => {
                let mut words = [0; MAX_WORDS];
                let done = card.read(start, count, &mut words);
                put_transfer(out, 0x82, done)?;
                put_words(out, &words[..done.processed])
            }
            Frame::Ticks(ticks) => {
                for _ in 0..ticks {
                    card.tick();
                }
                put_outputs(out, 0x83, card)
            }
            Frame::Event(event) => {
                card.event(event);
                put_outputs(out, 0x84, card)
            }
        }
    }
}

/// What every answer to a transfer begins with: number and processed.
pub fn put_transfer(out: &mut impl Write, kind: u8, answer: Answer) -> io::Result<()> {
    let number = answer.number as u8;
    write!(out, "{kind:02X}{number:02X}{:04X}", answer.processed)
}

/// The answer to ticks: the four outputs.
fn put_outputs(out: &mut impl Write, kind: u8, card: &Card) -> io::Result<()> {
    write!(out, "{kind:02X}")?;
    put_words(out, &card.outputs())
}

/// Words of four digits each, and the LF that ends the answer.
pub fn put_words(out: &mut impl Write, words: &[u16]) -> io::Result<()> {
    for word in words {
        write!(out, "{word:04X}")?;
    }
    out.write_all(b"\n")
}

#[cfg(test)]
mod tests {
    use crate::program::{self, Program};

    fn answers(input: &[u8]) -> String {
        program::answers(Program::Rampcard, input)
    }

    #[test]
    fn damaged_lines_answer_ff() {
        let damaged: [&[u8]; 26] = [
            b"0",
            b"01",
            b"02",
            b"03",
            b"04",
            b"01080",
            b"010800000",
            b"0108000",
            b"02080000010",
            b"0208000001 ",
            b" 0208000001",
            b"0208000001\r",
            b"02080000\x0001",
            b"020a000001",
            b"03000a",
            b"03000G",
            b"03000:",
            b"03000@",
            b"03000/",
            b"0300",
            b"040010",
            b"04\xFF\xFF",
            b"000000",
            b"05000A",
            b"83000A",
            b"\x000300\xC3\xA4",
        ];
        for line in damaged {
            assert_eq!(answers(line), "FF\n", "{line:?}");
        }
    }

    #[test]
    fn counts_and_lengths_at_their_bounds() {
        assert_eq!(answers(b"010080"), "81010000\n");
        assert_eq!(answers(b"0200800000"), "82010000\n");
        assert_eq!(answers(b"0200800041"), "FF\n");
        assert_eq!(answers(b"020080FFFF"), "FF\n");
        let most = format!("82000040{}\n", "0000".repeat(64));
        assert_eq!(answers(b"0200800040"), most);
        let words = |count| format!("010080{}", "0007".repeat(count));
        assert_eq!(answers(words(64).as_bytes()), "81000040\n");
        assert_eq!(answers(words(65).as_bytes()), "FF\n");
        assert_eq!(answers(format!("{}0", words(64)).as_bytes()), "FF\n");
    }

    #[test]
    fn frames_with_events() {
        let input = b"0140080010\n0142000001\n0410\n0242210001\n0242110001\n04FE\n0242210001\n";
        let output = "81000001\n81000001\n840000000000000000\n820000010001\n\
            820000010010\n840000000000000000\n820000010001\n";
        assert_eq!(answers(input), output);
    }
}
