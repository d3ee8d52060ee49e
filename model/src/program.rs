//! The two programs that answer, and the stream of lines of each of them.

use std::io::{self, Write};

use crate::bench::{self, Frame};
use crate::card::Card;
use crate::edition::Edition;
use crate::line;

/// The programs by their names.
#[derive(Clone, Copy, Debug, PartialEq, Eq)]
pub enum Program {
    /// The line program.
    Rampcard,
    Bench,
}

impl Program {
    pub fn named(name: &str) -> Option<Program> {
        match name {
            "rampcard" => Some(Program::Rampcard),
            "bench" => Some(Program::Bench),
            _ => None,
        }
    }

    /// The digits of the longest frame.
    fn longest(self) -> usize {
        match self {
            Program::Rampcard => line::LONGEST,
            Program::Bench => bench::LONGEST,
        }
    }

    /// The frame of a line without its LF, or None if it is any other line.
    pub fn frame(self, line: &[u8]) -> Option<Frame> {
        match self {
            Program::Rampcard => line::Frame::parse(line).map(Frame::Line),
            Program::Bench => Frame::parse(line),
        }
    }

    /// Answers one line, given without its LF, on the card.
    pub fn answer(self, card: &mut Card, line: &[u8], out: &mut impl Write) -> io::Result<()> {
        match self.frame(line) {
            Some(frame) => frame.perform(card, out),
            None => out.write_all(b"FF\n"),
        }
    }
}

/// Cuts the input into lines, whatever the pieces it comes in, and answers
/// them on one card.
pub struct Lines {
    program: Program,
    card: Card,
    /// The line begun by earlier pieces, kept to one byte past the longest
    /// frame: so long a line is no frame whatever follows.
    begun: Vec<u8>,
}

impl Lines {
    /// No line yet, on a fresh card of edition 1.
    pub fn new(program: Program) -> Self {
        Lines {
            program,
            card: Card::fresh(Edition::One),
            begun: Vec::with_capacity(program.longest() + 1),
        }
    }

    /// Takes a piece of the input and answers every line it completes.
    pub fn take(&mut self, mut piece: &[u8], out: &mut impl Write) -> io::Result<()> {
        while let Some(end) = piece.iter().position(|&byte| byte == b'\n') {
            let line = &piece[..end];
            if self.begun.is_empty() {
                self.program.answer(&mut self.card, line, out)?;
            } else {
                self.begin(line);
                self.answer_begun(out)?;
            }
            piece = &piece[end + 1..];
        }
        self.begin(piece);
        Ok(())
    }

    /// The input has ended: a last line may lack its LF. The card is given back.
    pub fn finish(mut self, out: &mut impl Write) -> io::Result<Card> {
        if !self.begun.is_empty() {
            self.answer_begun(out)?;
        }
        Ok(self.card)
    }

    fn answer_begun(&mut self, out: &mut impl Write) -> io::Result<()> {
        self.program.answer(&mut self.card, &self.begun, out)?;
        self.begun.clear();
        Ok(())
    }

    /// Keeps what is needed of a line not ended yet.
    fn begin(&mut self, part: &[u8]) {
        let room = self.program.longest() + 1 - self.begun.len();
        self.begun.extend_from_slice(&part[..part.len().min(room)]);
    }
}

/// All answers of the program to an input on its fresh card.
#[cfg(test)]
pub fn answers(program: Program, input: &[u8]) -> String {
    tests::answers_in(program, input, 65_536)
}

#[cfg(test)]
mod tests {
    use super::*;

    const BOTH: [Program; 2] = [Program::Rampcard, Program::Bench];

    /// The whole session of the paper, input left and output right.
    const SESSION: &str = "\
0108010001  81000001
010080000000040190000200640000  81000006
010A000001  81000001
0142020001  81000001
03000A  830000000000000000
03000A  830064000000000000
03001E  830190000000000000
03000A  8300FA000000000000
03000A  830064000000000000
020A330002  820400010002
0242210001  820000010001
";

    /// All answers to an input that comes in pieces of the given size.
    pub fn answers_in(program: Program, input: &[u8], size: usize) -> String {
        let mut lines = Lines::new(program);
        let mut out = Vec::new();
        for piece in input.chunks(size) {
            lines.take(piece, &mut out).unwrap();
        }
        lines.finish(&mut out).unwrap();
        String::from_utf8(out).unwrap()
    }

    fn session() -> (String, String) {
        let (mut input, mut output) = (String::new(), String::new());
        for (left, right) in SESSION.lines().filter_map(|row| row.split_once("  ")) {
            input += &format!("{left}\n");
            output += &format!("{right}\n");
        }
        (input, output)
    }

    #[test]
    fn the_whole_session_to_the_letter() {
        let (input, output) = session();
        assert_eq!(output.lines().count(), 11);
        for program in BOTH {
            assert_eq!(answers(program, input.as_bytes()), output);
            assert_eq!(answers(program, input.trim_end().as_bytes()), output);
        }
    }

    #[test]
    fn the_pieces_the_input_comes_in_do_not_matter() {
        let (input, output) = session();
        for size in [1, 2, 3, 7, 11, 100] {
            for program in BOTH {
                assert_eq!(answers_in(program, input.as_bytes(), size), output);
            }
        }
        let long = format!("11008000{:02X}{}\n18\n", 9, "0001".repeat(4096));
        for size in [1, 1000, 16_394, 16_395, 16_396] {
            let given = answers_in(Program::Bench, long.as_bytes(), size);
            assert_eq!(given, "910000090089\n98\n");
        }
    }

    #[test]
    fn ends_of_lines_and_of_the_input() {
        for program in BOTH {
            let answers = |input| answers(program, input);
            assert_eq!(answers(b""), "");
            assert_eq!(answers(b"\n"), "FF\n");
            assert_eq!(answers(b"\n\n"), "FF\nFF\n");
            assert_eq!(answers(b"030000"), "830000000000000000\n");
            assert_eq!(answers(b"030000\n"), "830000000000000000\n");
            assert_eq!(answers(b"030000\n\n"), "830000000000000000\nFF\n");
            assert_eq!(answers(b"030000\n0"), "830000000000000000\nFF\n");
        }
    }

    #[test]
    fn an_overlong_line_is_one_damaged_line_in_bounded_memory() {
        for program in BOTH {
            let mut lines = Lines::new(program);
            let mut out = Vec::new();
            for _ in 0..1000 {
                lines.take(&[b'0'; 1000], &mut out).unwrap();
            }
            assert!(lines.begun.len() <= program.longest() + 1);
            lines.take(b"\n030000\n", &mut out).unwrap();
            lines.finish(&mut out).unwrap();
            assert_eq!(out, b"FF\n830000000000000000\n");
        }
    }

    #[test]
    fn the_line_program_knows_no_frame_of_the_bench() {
        for line in [
            "1000",
            "1100800001ABCD",
            "120860000100015555",
            "1500000000",
            "16",
            "1701",
            "1702",
            "18",
            "1B000000",
            "1C0A047FFF",
        ] {
            assert_eq!(answers(Program::Rampcard, line.as_bytes()), "FF\n");
            assert_ne!(answers(Program::Bench, line.as_bytes()), "FF\n");
        }
    }
}
