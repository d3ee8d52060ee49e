//! The bench program: the line program's frames, and one for each further call.

use std::io::{self, Write};

use crate::card::Card;
use crate::edition::Edition;
use crate::line::{self, field, fields, put_transfer, put_words};
use crate::map::{Answer, Number};
use crate::panel::{self, Plotted, Reading};
use crate::profile::{self, Break};
use crate::saved;

/// The longest slice that a frame lends to a transfer.
pub const MAX_SLICE: usize = 0x1000;
/// The digits of the longest frame: a write from a slice of 4096 words.
pub const LONGEST: usize = 2 + 4 + 4 + 4 * MAX_SLICE;
/// The longest buffer that a frame lends to a save, and its bytes before.
pub const MAX_BUFFER: usize = 0x1_0000;
const BUFFER_FILL: u8 = 0x55;
/// The most words of a wave table's frame that a line has room for.
const MAX_WAVE: usize = (LONGEST - 4) / 4;

/// One frame, as its first byte names it.
#[derive(Debug, PartialEq, Eq)]
pub enum Frame {
    /// One of the line program's.
    Line(line::Frame),
    /// A wave table, of any number of words.
    Wave {
        channel: usize,
        words: Vec<u16>,
    },
    Write {
        start: u16,
        count: usize,
        slice: Vec<u16>,
    },
    Read {
        start: u16,
        count: usize,
        slice: Vec<u16>,
    },
    /// A save into this buffer.
    Save {
        buffer: Vec<u8>,
    },
    /// Whether the bench passes the profile.
    Check,
    /// A fresh card of this edition.
    Fresh(Edition),
    Reset,
    Plot {
        channel: usize,
        table: usize,
        point: usize,
    },
    Panel {
        address: u16,
        word: u16,
    },
}

impl Frame {
    /// The frame of a line without its LF, or None if it is any other line.
    pub fn parse(line: &[u8]) -> Option<Frame> {
        let (kind, rest) = line.split_at_checked(2)?;
        match field(kind)? {
            0x01..=0x04 => line::Frame::parse(line).map(Frame::Line),
            0x10 => Frame::parse_wave(rest),
            0x11 => Frame::parse_write(fields(rest, 4, &mut [0; 2 + MAX_SLICE])?),
            0x12 => Frame::parse_read(fields(rest, 4, &mut [0; 4])?),
            0x15 => Frame::parse_save(fields(rest, 4, &mut [0; 2])?),
            0x16 => rest.is_empty().then_some(Frame::Check),
            0x17 => Frame::parse_fresh(fields(rest, 2, &mut [0; 1])?),
            0x18 => rest.is_empty().then_some(Frame::Reset),
            0x1B => Frame::parse_plot(fields(rest, 2, &mut [0; 3])?),
            0x1C => Frame::parse_panel(fields(rest, 4, &mut [0; 2])?),
            _ => None,
        }
    }

    /// A channel of two digits, and words.
    fn parse_wave(rest: &[u8]) -> Option<Frame> {
        let (channel, words) = rest.split_at_checked(2)?;
        Some(Frame::Wave {
            channel: usize::from(field(channel)?),
            words: fields(words, 4, &mut [0; MAX_WAVE])?.to_vec(),
        })
    }

    /// Start, count and a slice of words, whatever the count says.
    fn parse_write(fields: &[u16]) -> Option<Frame> {
        let &[start, count, ref slice @ ..] = fields else {
            return None;
        };
        Some(Frame::Write {
            start,
            count: usize::from(count),
            slice: slice.to_vec(),
        })
    }

    /// Start, count, and the slice to read into: its length and its fill.
    fn parse_read(fields: &[u16]) -> Option<Frame> {
        let &[start, count, length, fill] = fields else {
            return None;
        };
        let length = usize::from(length);
        (length <= MAX_SLICE).then(|| Frame::Read {
            start,
            count: usize::from(count),
            slice: vec![fill; length],
        })
    }

    /// The buffer's length, in the two halves of its eight digits.
    fn parse_save(fields: &[u16]) -> Option<Frame> {
        let &[high, low] = fields else {
            return None;
        };
        let length = usize::from(high) << 16 | usize::from(low);
        (length <= MAX_BUFFER).then(|| Frame::Save {
            buffer: vec![BUFFER_FILL; length],
        })
    }

    /// There are two editions.
    fn parse_fresh(fields: &[u16]) -> Option<Frame> {
        match fields {
            [1] => Some(Frame::Fresh(Edition::One)),
            [2] => Some(Frame::Fresh(Edition::Two)),
            _ => None,
        }
    }

    fn parse_plot(fields: &[u16]) -> Option<Frame> {
        let &[channel, table, point] = fields else {
            return None;
        };
        Some(Frame::Plot {
            channel: usize::from(channel),
            table: usize::from(table),
            point: usize::from(point),
        })
    }

    fn parse_panel(fields: &[u16]) -> Option<Frame> {
        let &[address, word] = fields else {
            return None;
        };
        Some(Frame::Panel { address, word })
    }

    /// Does the frame on the card and writes its answer.
    pub fn perform(self, card: &mut Card, out: &mut impl Write) -> io::Result<()> {
        match self {
            Frame::Line(frame) => frame.perform(card, out),
            Frame::Wave { channel, words } => {
                let number = card.wave_table(channel, &words) as u8;
                writeln!(out, "90{number:02X}")
            }
            Frame::Write {
                start,
                count,
                slice,
            } => put_stopped(out, 0x91, card.write(start, count, &slice), &[]),
            Frame::Read {
                start,
                count,
                mut slice,
            } => {
                let done = card.read(start, count, &mut slice);
                put_stopped(out, 0x92, done, &slice)
            }
            Frame::Save { mut buffer } => put_saved(out, saved::save(card, &mut buffer), &buffer),
            Frame::Check => put_checked(out, profile::check(card)),
            Frame::Fresh(edition) => {
                *card = Card::fresh(edition);
                out.write_all(b"97\n")
            }
            Frame::Reset => {
                card.reset();
                out.write_all(b"98\n")
            }
            Frame::Plot {
                channel,
                table,
                point,
            } => put_plotted(out, panel::plotted(card, channel, table, point)),
            Frame::Panel { address, word } => put_reading(out, address, word),
        }
    }
}

/// The answer to a transfer by a slice: where it stopped, and the words that
/// the answer shows.
fn put_stopped(out: &mut impl Write, kind: u8, done: Answer, words: &[u16]) -> io::Result<()> {
    put_transfer(out, kind, done)?;
    write!(out, "{:04X}", done.address)?;
    put_words(out, words)
}

/// The answer to a save: number, bytes written and the whole buffer's sum.
fn put_saved(out: &mut impl Write, saved: Result<usize, Number>, buffer: &[u8]) -> io::Result<()> {
    let (number, written) = match saved {
        Ok(written) => (Number::Done, written),
        Err(number) => (number, 0),
    };
    let (number, sum) = (number as u8, adler32(buffer));
    writeln!(out, "95{number:02X}{written:08X}{sum:08X}")
}

/// The answer to a check: 00, or 01 with the first channel and level.
fn put_checked(out: &mut impl Write, broken: Option<Break>) -> io::Result<()> {
    match broken {
        None => out.write_all(b"9600\n"),
        Some(Break { channel, level, .. }) => writeln!(out, "9601{channel:02X}{level:02X}"),
    }
}

/// The Adler-32 check sum: one plus all bytes, and the sum of these sums on
/// the way, each modulo 65,521.
fn adler32(bytes: &[u8]) -> u32 {
    const MODULUS: u32 = 65_521;
    // So many bytes can be added before a sum leaves 32 bits.
    const TOGETHER: usize = 5552;
    let (mut low, mut high) = (1, 0);
    for chunk in bytes.chunks(TOGETHER) {
        for &byte in chunk {
            low += u32::from(byte);
            high += low;
        }
        low %= MODULUS;
        high %= MODULUS;
    }
    high << 16 | low
}

/// The answer to a plotted point, as whole numbers; both fields are exact.
fn put_plotted(out: &mut impl Write, plotted: Option<Plotted>) -> io::Result<()> {
    match plotted {
        None => out.write_all(b"9B00\n"),
        Some(point) => {
            let volts = (point.volts * 32768.0) as i32;
            let microseconds = point.microseconds as u64;
            writeln!(out, "9B01{volts:08X}{microseconds:016X}")
        }
    }
}

/// The answer to a panel reading: its kind and its value as a whole number.
fn put_reading(out: &mut impl Write, address: u16, word: u16) -> io::Result<()> {
    let (kind, value) = match panel::reading(address, word) {
        Reading::Nothing => (0, i32::from(word)),
        Reading::Volts(volts) => (1, (volts * 32768.0) as i32),
        Reading::Factor(factor) => (2, (factor * 256.0) as i32),
        Reading::Microseconds(word) => (3, i32::from(word)),
        Reading::Samples(word) => (4, i32::from(word)),
        Reading::Plain(word) => (5, i32::from(word)),
    };
    writeln!(out, "9C{kind:02X}{value:08X}")
}

#[cfg(test)]
mod tests {
    use super::*;
    use crate::program::{self, Program};

    fn answers(input: &str) -> String {
        program::answers(Program::Bench, input.as_bytes())
    }

    /// A write frame of the table from 0x0080 on, with this many words.
    fn long_write(count: &str, words: usize) -> String {
        format!("110080{count}{}", "0007".repeat(words))
    }

    #[test]
    fn writes_by_count_and_slice() {
        for (line, answer) in [
            ("1100800000", "910100000080"),
            ("1100800001", "910100000080"),
            ("1100800001ABCD", "910000010081"),
            ("1100800001ABCDABCD", "910000010081"),
            ("1100800003ABCDABCD", "910100000080"),
            ("110080FFFFABCD", "910100000080"),
            ("11FFFF0000", "91010000FFFF"),
            ("11FFFF0001ABCD", "91020000FFFF"),
            ("1108200001ABCD", "910200000820"),
            ("1142100001ABCD", "910300004210"),
            ("11423F0001ABCD", "910000014240"),
            ("11423E0003ABCDABCDABCD", "910400024240"),
            ("11007F0001ABCD", "91050000007F"),
            ("1138400003001F002000FF", "910600013841"),
            ("11401F000200100010", "910700014020"),
        ] {
            assert_eq!(answers(line), format!("{answer}\n"), "{line}");
        }
        let one = answers("1100800001ABCDABCD\n0200800002");
        assert_eq!(one, "910000010081\n82000002ABCD0000\n");
    }

    #[test]
    fn the_longest_write() {
        assert_eq!(answers(&long_write("0780", 4096)), "910007800800\n");
        assert_eq!(answers(&long_write("0781", 4096)), "910407800800\n");
        assert_eq!(answers(&long_write("1000", 4096)), "910407800800\n");
        assert_eq!(answers(&long_write("1001", 4096)), "910100000080\n");
        assert_eq!(long_write("0780", 4096).len(), LONGEST);
        assert_eq!(LONGEST, 16_394);
        for longer in ["0", "0007", "\r", " "] {
            let line = long_write("0780", 4096) + longer;
            assert_eq!(answers(&line), "FF\n", "{longer:?}");
        }
    }

    /// A write to A04 by a slice says where it was refused, and is then taken.
    #[test]
    fn a_write_while_a_ramp_runs() {
        let write = "110A0400010007\n";
        let running = format!("{}0142020001\n03000A\n{write}", one_point(5));
        let given = answers(&format!("{running}010A010000\n0142020001\n{write}"));
        let given: Vec<&str> = given.lines().collect();
        assert_eq!((given[6], given[9]), ("910800000A04", "910000010A05"));
    }

    /// The line program's frames keep their answers, whatever stops them.
    #[test]
    fn frames_of_the_line_program_give_no_address() {
        for (line, answer) in [
            ("010080ABCDABCD", "81000002"),
            ("010080", "81010000"),
            ("01FFFFABCD", "81020000"),
            ("01423EABCDABCDABCD", "81040002"),
            ("013840001F002000FF", "81060001"),
            ("02423E0002", "8200000200000000"),
            ("02423E0003", "8204000200000000"),
            ("0242020001", "82030000"),
        ] {
            assert_eq!(answers(line), format!("{answer}\n"), "{line}");
        }
    }

    /// The frame of a wave table whose words are all the same.
    fn wave(channel: &str, word: &str, words: usize) -> String {
        format!("10{channel}{}", word.repeat(words))
    }

    #[test]
    fn wave_tables_by_channel_length_and_word() {
        for (channel, word, words, answer) in [
            ("00", "4000", 1024, "9000"),
            ("03", "C000", 1024, "9000"),
            ("04", "0000", 1024, "9009"),
            ("FF", "0000", 1024, "9009"),
            ("00", "0000", 0, "9009"),
            ("00", "0000", 1, "9009"),
            ("00", "0000", 1023, "9009"),
            ("00", "0000", 1025, "9009"),
            ("00", "0000", 4096, "9009"),
            ("00", "4001", 1024, "9009"),
            ("00", "BFFF", 1024, "9009"),
            ("00", "7FFF", 1024, "9009"),
        ] {
            let line = wave(channel, word, words);
            assert_eq!(
                answers(&line),
                format!("{answer}\n"),
                "{channel} {word} {words}"
            );
        }
    }

    #[test]
    fn the_longest_wave_table_is_a_frame_and_too_long() {
        let longest = wave("00", "0000", MAX_WAVE);
        assert_eq!((MAX_WAVE, longest.len()), (4097, LONGEST - 2));
        assert_eq!(answers(&longest), "9009\n");
        for longer in ["0", "00", "000", "0000", "00000000"] {
            assert_eq!(answers(&format!("{longest}{longer}")), "FF\n", "{longer}");
        }
        for other in ["0", "00", "000", "G", "000g", "\r"] {
            let line = wave("00", "0000", 1024) + other;
            assert_eq!(answers(&line), "FF\n", "{other:?}");
        }
    }

    /// Channel 0 holds a ramp of one point, 1000, at level 1, in the mode.
    fn one_point(mode: u16) -> String {
        format!("0108010001\n01008003E80000\n010A000001\n010A01{mode:04X}\n")
    }

    #[test]
    fn a_sine_in_free_run_by_frames() {
        let wave = wave("00", "2000", 1024);
        let frames = format!("{}010920C000\n{wave}\n0142020001\n", one_point(5));
        let looks = format!("03000A\n03000A\n03000A\n010A040007\n{wave}\n100000\n1000\n");
        let given = answers(&format!("{frames}{looks}18\n{wave}\n"));
        let (_, given) = given.split_once("9000\n81000001\n").unwrap();
        let outputs = "8301F4000000000000\n83FE0C000000000000\n83FE0C000000000000\n";
        assert_eq!(
            given,
            format!("{outputs}81080000\n9008\nFF\n9009\n98\n9000\n")
        );
    }

    #[test]
    fn a_reset_forgets_the_wave_table() {
        let wave = wave("00", "2000", 1024);
        let trigger = "0142020001\n03000A\n";
        let session = format!("{wave}\n{0}{trigger}18\n{0}{trigger}", one_point(1));
        let given = answers(&session);
        let (before, after) = given.split_once("98\n").unwrap();
        assert!(before.ends_with("8301F4000000000000\n"));
        assert!(after.ends_with("830000000000000000\n"));
    }

    #[test]
    fn a_read_answers_the_whole_slice() {
        for (line, answer) in [
            ("1208600001000155AA", "9200000108610100"),
            ("1208600001000355AA", "920000010861010055AA55AA"),
            ("120A3100020003FFFE", "920400010A320100FFFEFFFE"),
            ("12423E000200020BAD", "92000002424000000000"),
            ("12423E000300030BAD", "920400024240000000000BAD"),
            ("120860000200015555", "9201000008605555"),
            ("120860000000025555", "92010000086055555555"),
            ("120860000000005555", "920100000860"),
            ("12FFFF000000015555", "92010000FFFF5555"),
            ("12FFFF000100015555", "92020000FFFF5555"),
            ("120820000100011234", "9202000008201234"),
            ("124202000100011234", "9203000042021234"),
        ] {
            assert_eq!(answers(line), format!("{answer}\n"), "{line}");
        }
        let whole = answers("120000FFFF10000BAD");
        assert_eq!(whole, format!("920100000000{}\n", "0BAD".repeat(4096)));
        let most = format!(
            "920408000800{}{}\n",
            "0000".repeat(2048),
            "0BAD".repeat(2048)
        );
        assert_eq!(answers("120000100010000BAD"), most);
        assert_eq!(answers("120000100010010BAD"), "FF\n");
    }

    #[test]
    fn a_reset_is_the_card_of_the_start() {
        let frames = "0108610200\n010A000001\n0142020001\n03000A\n";
        let looks = "0208610001\n020A000001\n0242200002\n0242110001\n030014\n";
        let after = answers(&format!("{frames}18\n{looks}"));
        let (_, after) = after.split_once("98\n").unwrap();
        assert_eq!(after, answers(looks));
    }

    /// The frames leave a card in use: settings, a ramp, counts, a wave table.
    #[test]
    fn a_fresh_card_is_the_card_of_the_start() {
        let wave = wave("00", "2000", 1024);
        let used = format!("{wave}\n{}0108610200\n0142020001\n03000A\n", one_point(5));
        let looks = format!(
            "0208610001\n020A000002\n020A010001\n0242200002\n0242110001\n15000094BF\n16\n\
            030014\n{}0142020001\n030014\n",
            one_point(1)
        );
        for fresh in ["1701", "1702"] {
            let after = answers(&format!("{used}{fresh}\n{looks}"));
            let (before, after) = after.split_once("97\n").unwrap();
            assert!(before.ends_with("8301F4000000000000\n"));
            assert_eq!(after, answers(&looks), "{fresh}");
        }
    }

    /// Equal settings give equal checks and equal saved lines in both editions.
    #[test]
    fn checks_and_saves_of_both_editions() {
        let bench = "010080000000033FFF0000\n0108010001\n0108410001\n0108610200\n0108810001\n";
        for (offset, checked) in [("0001", "9600"), ("0002", "96010001")] {
            let frames = format!("{bench}0108A1{offset}\n16\n15000094BF\n");
            let [one, two] = ["1701", "1702"].map(|fresh| answers(&format!("{fresh}\n{frames}")));
            assert_eq!(one, two);
            assert_eq!(one.lines().nth(7), Some(checked));
            assert!(one.lines().nth(8).unwrap().starts_with("9500000094BF"));
        }
    }

    #[test]
    fn a_reset_forgets_a_pending_trigger() {
        let delays = "0108E10032\n0118E10032\n0128E10032\n0138E10032\n";
        let looks = "0242100001\n0242110001\n0242210001\n";
        let later = format!("{looks}030064\n{looks}");
        // Level 2 shows, level 1 is pending.
        let given = answers(&format!(
            "{delays}0142020002\n0142020001\n{looks}18\n{later}"
        ));
        let (before, after) = given.split_once("98\n").unwrap();
        assert!(before.ends_with("820000010002\n8200000100FE\n820000010001\n"));
        assert_eq!(after, answers(&later));
    }

    #[test]
    fn points_of_the_table_as_it_stands() {
        let table = "1100800006000000048000000200640000";
        for (point, answer) in [
            ("1B000100", "9B01000000000000000000000000"),
            ("1B000101", "9B01FFFB00000000000000000028"),
            ("1B000102", "9B01000003E8000000000000003C"),
            ("1B000103", "9B00"),
            ("1B040100", "9B00"),
            ("1B001000", "9B00"),
            ("1B000140", "9B00"),
            ("1BFFFFFF", "9B00"),
        ] {
            let given = answers(&format!("{table}\n{point}"));
            assert_eq!(given, format!("910000060086\n{answer}\n"), "{point}");
        }
    }

    #[test]
    fn the_latest_time() {
        let table = format!("1137800080{}", "FFFF".repeat(128));
        let given = answers(&format!("{table}\n1B030F3F\n1B030F40"));
        let time = 41_287_050;
        let point = format!("9B01FFFFFFF6{time:016X}");
        assert_eq!(given, format!("910000803800\n{point}\n9B00\n"));
    }

    #[test]
    fn readings_as_whole_numbers() {
        for (line, answer) in [
            ("1C00808000", "9C01FFFB0000"),
            ("1C00817FFF", "9C0400007FFF"),
            ("1C0A047FFF", "9C010004FFF6"),
            ("1C0A32FFFF", "9C01FFFFFFF6"),
            ("1C08A00001", "9C010000000A"),
            ("1C08608000", "9C02FFFF8000"),
            ("1C0A310100", "9C0200000100"),
            ("1C08FFFFFF", "9C030000FFFF"),
            ("1C0081FFFF", "9C040000FFFF"),
            ("1C4202FFFF", "9C050000FFFF"),
            ("1C0A34FFFF", "9C050000FFFF"),
            ("1C0820FFFF", "9C000000FFFF"),
            ("1CFFFF0000", "9C0000000000"),
        ] {
            assert_eq!(answers(line), format!("{answer}\n"), "{line}");
        }
    }

    #[test]
    fn check_sums() {
        assert_eq!(adler32(b""), 1);
        assert_eq!(adler32(b"a"), 0x0062_0062);
        assert_eq!(adler32(b"Wikipedia"), 0x11E6_0398);
        // The bytes one by one, each sum cut at once.
        for length in [5551, 5552, 5553, 65_536] {
            let bytes = vec![0xFF; length];
            let (mut low, mut high) = (1_u64, 0_u64);
            for &byte in &bytes {
                low = (low + u64::from(byte)) % 65_521;
                high = (high + low) % 65_521;
            }
            assert_eq!(u64::from(adler32(&bytes)), high << 16 | low, "{length}");
        }
    }

    /// The check sum of a buffer that begins with these bytes.
    fn sum(lines: &[u8], length: usize) -> u32 {
        let mut buffer = vec![BUFFER_FILL; length];
        buffer[..lines.len()].copy_from_slice(lines);
        adler32(&buffer)
    }

    #[test]
    fn saves_by_the_buffers_length() {
        assert_eq!(answers("1500000000"), "950A0000000000000001\n");
        assert_eq!(answers("1500000001"), "950A0000000000560056\n");
        let short = sum(b"", 38_078);
        assert_eq!(answers("15000094BE"), format!("950A00000000{short:08X}\n"));
        let mut lines = vec![0; 38_079];
        saved::save(&Card::fresh(Edition::One), &mut lines).unwrap();
        for length in [38_079, 38_080, 65_536] {
            let answer = format!("9500000094BF{:08X}\n", sum(&lines, length));
            assert_eq!(answers(&format!("15{length:08X}")), answer, "{length}");
        }
    }

    #[test]
    fn a_save_shows_what_was_written_and_changes_nothing() {
        let look = "15000094BF\n";
        let again = answers(&format!("0108E10032\n{look}0208E10001\n{look}18\n{look}"));
        let given: Vec<&str> = again.lines().collect();
        assert_eq!((given[0], given[2]), ("81000001", "820000010032"));
        assert_eq!(given[1], given[3]);
        assert_ne!(given[1], given[5]);
        assert_eq!(answers(look), format!("{}\n", given[5]));
    }

    #[test]
    fn a_check_names_the_first_channel_and_level_and_changes_nothing() {
        assert_eq!(answers("16"), "9600\n");
        // Channel 2 breaks at level 17, then channel 1 at level 31.
        let two = "01208040000000\n0128110001\n0128510001\n0128610200\n16\n";
        let one = "01178040000000\n01181F000F\n01185F001F\n01187F0200\n16\n";
        let given = answers(&format!("{two}{one}15000094BF\n16\n15000094BF\n"));
        let given: Vec<&str> = given.lines().collect();
        assert_eq!(
            (given[4], given[9], given[11]),
            ("96010211", "9601011F", "9601011F")
        );
        assert_eq!(given[10], given[12]);
    }

    #[test]
    fn damaged_lines_answer_ff() {
        let damaged = "10 100 10000 100000 1000000 10000G 100G 100g 10000000001 11 12 13 14 15 17 19 1A 1B 1C 1D 1E 1F 180 1800 110080 1100800 \
            11008000010 110080000100070 1100800001000G 1208600001000155A 1208600001000155AA0 \
            1208600001000155aa 12086000010001 1B0000 1B00000 1B0000000 1B000000000 1b000000 \
            1C080000 1C0800000 1C080000000 1C0800000000 1c08000000 1C08000G00 91 98 9B00 14000A 1400000001 \
            1500 150000 15000094 150000094 15000094B 15000094BF0 15000094BF0000 1500010001 15FFFFFFFF \
            15000094bf 15000094BG 95 160 16F 1600 160000 16G 1601 9600 96 1900 1A00 90 9000 \
            17 170 1700 1703 1704 17FF 1710 1720 171 17010 170101 170201 17000001 170001 1701G 17G1 970 97";
        for line in damaged.split_whitespace() {
            assert_eq!(answers(line), "FF\n", "{line}");
        }
        assert_eq!(answers("18\r\n18 \n 18\n1 8\n18"), "FF\nFF\nFF\nFF\n98\n");
        assert_eq!(answers("16\r\n16 \n 16\n1 6\n16"), "FF\nFF\nFF\nFF\n9600\n");
        let lines = "1702\r\n1702 \n 1702\n17 02\n1702";
        assert_eq!(answers(lines), "FF\nFF\nFF\nFF\n97\n");
    }
}
