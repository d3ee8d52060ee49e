//! What the program save tells of the lines that are not answered 0.

use std::io::{self, Write};

/// Takes the line program's answers, one for each line of the input, and tells
/// those that refuse their line.
pub struct Refused<W> {
    told: W,
    /// The answer begun.
    answer: Vec<u8>,
    lines: u64,
    refused: u64,
}

impl<W: Write> Refused<W> {
    /// No answer yet.
    pub fn new(told: W) -> Self {
        Refused {
            told,
            answer: Vec::new(),
            lines: 0,
            refused: 0,
        }
    }

    /// The answer has come to its LF.
    fn answered(&mut self) -> io::Result<()> {
        self.lines += 1;
        if refuses(&self.answer) {
            self.refused += 1;
            write!(self.told, "save: line {} is answered ", self.lines)?;
            self.told.write_all(&self.answer)?;
            self.told.write_all(b"\n")?;
        }
        self.answer.clear();
        Ok(())
    }

    /// The input has ended: how many lines were refused, if any.
    pub fn finish(&mut self) -> io::Result<()> {
        let (refused, lines) = (self.refused, self.lines);
        if refused > 0 {
            writeln!(
                self.told,
                "save: {refused} of {lines} lines refused; \
                the others were done; the guide has the numbers"
            )?;
        }
        self.told.flush()
    }
}

impl<W: Write> Write for Refused<W> {
    fn write(&mut self, bytes: &[u8]) -> io::Result<usize> {
        for &byte in bytes {
            match byte {
                b'\n' => self.answered()?,
                _ => self.answer.push(byte),
            }
        }
        Ok(bytes.len())
    }

    fn flush(&mut self) -> io::Result<()> {
        self.told.flush()
    }
}

/// Whether the line was no frame, or a transfer not answered 0.
fn refuses(answer: &[u8]) -> bool {
    let transfer = answer.starts_with(b"81") || answer.starts_with(b"82");
    answer == b"FF" || transfer && !answer[2..].starts_with(b"00")
}

#[cfg(test)]
mod tests {
    use super::*;

    #[test]
    fn answers_that_refuse() {
        for answer in ["FF", "81010000", "81040002", "82020000", "820400010002"] {
            assert!(refuses(answer.as_bytes()), "{answer}");
        }
        for answer in [
            "81000001",
            "820000010009",
            "830100000000000000",
            "84FFFF000000000000",
        ] {
            assert!(!refuses(answer.as_bytes()), "{answer}");
        }
    }

    /// What is told of these answers, which come in two pieces.
    fn told(answers: &str, cut: usize) -> String {
        let mut out = Vec::new();
        let mut refused = Refused::new(&mut out);
        refused.write_all(&answers.as_bytes()[..cut]).unwrap();
        refused.write_all(&answers.as_bytes()[cut..]).unwrap();
        refused.finish().unwrap();
        String::from_utf8(out).unwrap()
    }

    #[test]
    fn refused_lines_by_their_number() {
        let answers = "81000001\nFF\n830000000000000000\n820400010002\n81000001\n";
        let lines = "save: line 2 is answered FF\n\
            save: line 4 is answered 820400010002\n\
            save: 2 of 5 lines refused; the others were done; \
            the guide has the numbers\n";
        for cut in 0..answers.len() {
            assert_eq!(told(answers, cut), lines, "{cut}");
        }
    }

    #[test]
    fn nothing_is_told_where_nothing_is_refused() {
        assert_eq!(told("", 0), "");
        assert_eq!(told("81000001\n830000000000000000\n", 3), "");
    }
}
