//! A model of the four-channel ramp card behind its four programs.

mod bench;
mod benches;
mod card;
mod channel;
mod edition;
mod line;
mod map;
mod panel;
mod profile;
mod program;
mod random;
mod reach;
mod refused;
mod saved;
mod sessions;
mod sine;

use std::env;
use std::fs::{self, File};
use std::io::{self, BufWriter, ErrorKind, Read, Write};
use std::os::fd::AsFd;
use std::path::Path;
use std::process::ExitCode;

use card::Card;
use program::{Lines, Program};
use reach::Reach;
use refused::Refused;

/// What the program can be asked for.
const USAGE: &str = "no argument, or: bench, or: save, or: verdict, \
    or: sessions rampcard|bench SEED COUNT DIR, or: reach rampcard|bench FILE..., \
    or: benches SEED COUNT DIR";
/// The input is read in pieces of this many bytes.
const PIECE: usize = 64 * 1024;
/// The program verdict reads this many bytes at most; no saved bench is so long.
const MOST: u64 = 65_536;

fn main() -> ExitCode {
    let arguments: Vec<String> = env::args_os()
        .skip(1)
        .map(|argument| argument.to_string_lossy().into_owned())
        .collect();
    let arguments: Vec<&str> = arguments.iter().map(String::as_str).collect();
    match run(&arguments) {
        Ok(()) => ExitCode::SUCCESS,
        Err(word) => {
            eprintln!("ramp card: {word}");
            ExitCode::FAILURE
        }
    }
}

fn run(arguments: &[&str]) -> Result<(), String> {
    match arguments {
        [] => dialogue(Program::Rampcard).map_err(said),
        ["sessions", program, seed, count, directory] => {
            let (program, [seed, count]) = (named(program)?, numbers([seed, count])?);
            sessions::write_all(program, seed, count, Path::new(directory)).map_err(said)
        }
        ["benches", seed, count, directory] => {
            let [seed, count] = numbers([seed, count])?;
            benches::write_all(seed, count, Path::new(directory)).map_err(said)
        }
        ["reach", program, files @ ..] => print_reach(named(program)?, files),
        ["save"] => telling(save).map_err(said),
        ["verdict"] => telling(verdict).map_err(said),
        [program] => dialogue(named(program)?).map_err(said),
        _ => Err(USAGE.to_string()),
    }
}

fn named(name: &str) -> Result<Program, String> {
    Program::named(name).ok_or(USAGE.to_string())
}

/// A seed and a count.
fn numbers([seed, count]: [&str; 2]) -> Result<[u64; 2], String> {
    let number = |name: &str, digits: &str| {
        let refused = |_| format!("{name} is a decimal number of 64 bits");
        digits.parse().map_err(refused)
    };
    Ok([number("SEED", seed)?, number("COUNT", count)?])
}

fn said(error: io::Error) -> String {
    error.to_string()
}

/// Standard input to standard output on a fresh card of edition 1.
fn dialogue(program: Program) -> io::Result<()> {
    let [input, output] = [plain(io::stdin())?, plain(io::stdout())?];
    serve(program, input, BufWriter::with_capacity(PIECE, output))?;
    Ok(())
}

/// Standard input to standard output; what is told goes to standard error.
fn telling(made: fn(File, File, BufWriter<File>) -> io::Result<()>) -> io::Result<()> {
    let [input, output] = [plain(io::stdin())?, plain(io::stdout())?];
    made(input, output, BufWriter::new(plain(io::stderr())?))
}

/// A plain file, so that every failed read or write is seen as one.
fn plain(stream: impl AsFd) -> io::Result<File> {
    Ok(File::from(stream.as_fd().try_clone_to_owned()?))
}

/// Plays the lines of the whole input, then writes the saved lines.
fn save(input: impl Read, mut output: impl Write, told: impl Write) -> io::Result<()> {
    let mut refused = Refused::new(told);
    let card = serve(Program::Rampcard, input, &mut refused)?;
    refused.finish()?;
    output.write_all(&saved::lines(&card))?;
    output.flush()
}

/// Plays the input on a reset card, then writes the verdict on that card. The
/// input is a saved bench if the card saves it again to the byte; of any other
/// it is told that nothing is checked.
fn verdict(input: impl Read, mut output: impl Write, mut told: impl Write) -> io::Result<()> {
    // The front of a longer input is no saved bench either.
    let mut bench = Vec::new();
    input.take(MOST).read_to_end(&mut bench)?;
    let card = serve(Program::Rampcard, &bench[..], io::sink())?;
    if bench != saved::lines(&card) {
        writeln!(told, "check: no saved bench came in; nothing is checked")?;
        return told.flush();
    }
    output.write_all(&profile::verdict(&card))?;
    output.flush()
}

/// Answers the whole input, and gives the card at its end; the answers of all
/// complete lines received are written before it waits for more.
fn serve(program: Program, mut input: impl Read, mut output: impl Write) -> io::Result<Card> {
    let mut lines = Lines::new(program);
    let mut piece = vec![0; PIECE];
    loop {
        match input.read(&mut piece) {
            Ok(0) => break,
            Ok(length) => lines.take(&piece[..length], &mut output)?,
            Err(error) if error.kind() == ErrorKind::Interrupted => continue,
            Err(error) => return Err(error),
        }
        output.flush()?;
    }
    let card = lines.finish(&mut output)?;
    output.flush()?;
    Ok(card)
}

/// Prints what the sessions of the files reach, a line a thing.
fn print_reach(program: Program, files: &[&str]) -> Result<(), String> {
    let mut reach = Reach::new(program);
    for file in files {
        let session = fs::read(file).map_err(|error| format!("{file}: {error}"))?;
        reach.play(&session);
    }
    write!(io::stdout(), "{reach}").map_err(said)
}

#[cfg(test)]
mod tests {
    use super::*;
    use std::collections::VecDeque;

    /// An input that gives one prepared outcome for each read.
    struct Script(VecDeque<io::Result<&'static [u8]>>);

    impl Read for Script {
        fn read(&mut self, buffer: &mut [u8]) -> io::Result<usize> {
            let bytes = self.0.pop_front().unwrap_or(Ok(b""))?;
            buffer[..bytes.len()].copy_from_slice(bytes);
            Ok(bytes.len())
        }
    }

    /// An output that takes nothing.
    struct Full;

    impl Write for Full {
        fn write(&mut self, _: &[u8]) -> io::Result<usize> {
            Err(ErrorKind::StorageFull.into())
        }

        fn flush(&mut self) -> io::Result<()> {
            Ok(())
        }
    }

    #[test]
    fn an_interrupted_read_is_retried() {
        let script = [
            Ok(&b"0300"[..]),
            Err(ErrorKind::Interrupted.into()),
            Ok(b"00\n"),
        ];
        let mut out = Vec::new();
        serve(Program::Bench, Script(VecDeque::from(script)), &mut out).unwrap();
        assert_eq!(out, b"830000000000000000\n");
    }

    #[test]
    fn another_failed_read_ends_it_after_the_answers_given() {
        let script = [Ok(&b"\n"[..]), Err(ErrorKind::Other.into())];
        let mut out = Vec::new();
        assert!(serve(Program::Bench, Script(VecDeque::from(script)), &mut out).is_err());
        assert_eq!(out, b"FF\n");
    }

    /// What is saved of an input and what is told of it.
    fn saved_of(input: &[u8]) -> (String, String) {
        let (mut out, mut told) = (Vec::new(), Vec::new());
        save(input, &mut out, &mut told).unwrap();
        let [out, told] = [out, told].map(|bytes| String::from_utf8(bytes).unwrap());
        (out, told)
    }

    /// The verdict on an input and what is told of it.
    fn verdict_on(input: &[u8]) -> (String, String) {
        let (mut out, mut told) = (Vec::new(), Vec::new());
        verdict(input, &mut out, &mut told).unwrap();
        let [out, told] = [out, told].map(|bytes| String::from_utf8(bytes).unwrap());
        (out, told)
    }

    #[test]
    fn an_input_is_played_and_saved() {
        let (reset, told) = saved_of(b"");
        assert_eq!((reset.len(), reset.lines().count()), (38_079, 173));
        assert_eq!(told, "");
        let (out, told) = saved_of(b"010A000001\n0142020001\n03000A\n0400\n020A330001");
        assert_eq!(told, "");
        assert_eq!(out, reset.replace("010A000000", "010A000001"));
        assert_eq!(saved_of(out.as_bytes()), (out, String::new()));
    }

    #[test]
    fn the_input_goes_on_after_a_refused_line() {
        let long = "0".repeat(100_000);
        let input = format!("\n{long}\n0108000001000F00100002\n010A010002\n020A330002\n0142000001");
        let (out, told) = saved_of(input.as_bytes());
        let lines: Vec<&str> = told.lines().collect();
        assert_eq!(
            lines[..2],
            ["save: line 1 is answered FF", "save: line 2 is answered FF"]
        );
        assert_eq!(lines[2], "save: line 3 is answered 81060002");
        assert_eq!(lines[3], "save: line 4 is answered 81060000");
        assert_eq!(lines[4], "save: line 5 is answered 820400010000");
        let all = "save: 5 of 6 lines refused; the others were done; \
            the guide has the numbers";
        assert_eq!(lines[5..], [all]);
        // The words before the refused one are done.
        assert!(out.contains("\n0108000001000F00000000"));
        assert!(out.ends_with("\n0142000001\n"));
    }

    #[test]
    fn one_refused_line() {
        let (_, told) = saved_of(b"030001\n18\n030001\n");
        let all = "save: line 2 is answered FF\nsave: 1 of 3 lines refused; \
            the others were done; the guide has the numbers\n";
        assert_eq!(told, all);
    }

    const PASSES: &str = "the bench passes: every sum of every ramp is in range\n";

    #[test]
    fn a_saved_bench_is_checked() {
        let (reset, _) = saved_of(b"");
        let checked = |line: &str| (line.to_string(), String::new());
        assert_eq!(verdict_on(reset.as_bytes()), checked(PASSES));
        // Level 3 of channel 0 plays table 5: 16383, 16384, then the end.
        let table = "01080300050000\n0102803FFF000140000001\n";
        let (bench, _) = saved_of(table.as_bytes());
        assert_ne!(bench, reset);
        assert_eq!(verdict_on(bench.as_bytes()), checked(PASSES));
        // Refused lines are told of once, where the bench is saved.
        let scale = "010843001F\n01087F0200\n16";
        let (bench, told) = saved_of(format!("{table}{scale}").as_bytes());
        assert_eq!(told.lines().count(), 2);
        let breaks = "the bench breaks the profile, first at channel 0, level 3: \
            the sum at point 1 of table 5 is out of range\n";
        assert_eq!(verdict_on(bench.as_bytes()), checked(breaks));
    }

    /// No verdict on the input, and the one line that says so.
    fn not_checked(input: &[u8]) -> bool {
        let none = "check: no saved bench came in; nothing is checked\n";
        verdict_on(input) == (String::new(), none.to_string())
    }

    #[test]
    fn an_input_of_another_length_is_not_checked() {
        let (bench, _) = saved_of(b"0138000001\n");
        let twice = bench.repeat(2);
        for length in [0, 1, 11, 38_078, 38_080, 65_536, 65_537, 2 * 38_079] {
            assert!(not_checked(&twice.as_bytes()[..length]), "{length}");
        }
        assert!(not_checked(&b"\n".repeat(1_000_000)));
        // A line behind it, or one before it, that changes nothing.
        assert!(not_checked(format!("{bench}\n").as_bytes()));
        assert!(not_checked(format!("{bench}0138000001\n").as_bytes()));
        assert!(not_checked(format!("03000A\n{bench}").as_bytes()));
        // Two lines in one, or CR LF line ends.
        assert!(not_checked(bench.replacen('\n', "", 1).as_bytes()));
        assert!(not_checked(bench.replace('\n', "\r\n").as_bytes()));
    }

    #[test]
    fn a_damaged_bench_of_the_right_length_is_not_checked() {
        let (bench, _) = saved_of(b"0142000001\n0138000001\n0140000001\n");
        assert_eq!(verdict_on(bench.as_bytes()).0, PASSES);
        for at in (0..bench.len()).step_by(101).chain([38_077, 38_078]) {
            let mut damaged = bench.clone().into_bytes();
            damaged[at] = b'G';
            assert!(not_checked(&damaged), "{at}");
        }
        for byte in [b"\n", b"0", b"\0", b"\xFF"] {
            assert!(not_checked(&byte.repeat(38_079)), "{byte:?}");
        }
        // A word in lower case, another address, and words that the card
        // refuses: a table that is none, on level 1 an event of level 0.
        let slots = format!("\n0140000001{}", "00FE".repeat(7));
        for (line, other) in [
            (format!("{slots}00FE"), format!("{slots}00fe")),
            ("\n0142000001".into(), "\n0142020001".into()),
            ("\n0108000000".into(), "\n0108000010".into()),
            (format!("{slots}00FE"), format!("{slots}0001")),
        ] {
            assert_eq!(bench.matches(&line).count(), 1, "{line}");
            let damaged = bench.replace(&line, &other);
            assert_eq!(damaged.len(), 38_079, "{other}");
            assert!(not_checked(damaged.as_bytes()), "{other}");
        }
    }

    /// In another order the lines leave the same card, but one order is saved.
    #[test]
    fn swapped_lines_are_not_checked() {
        let (bench, _) = saved_of(b"0100801234\n0142000001\n");
        let lines: Vec<&str> = bench.split_inclusive('\n').collect();
        for [one, other] in [[0, 1], [0, 172], [40, 41], [168, 171]] {
            let mut swapped = lines.clone();
            swapped.swap(one, other);
            let swapped = swapped.concat();
            assert_eq!(saved_of(swapped.as_bytes()).0, bench);
            assert!(not_checked(swapped.as_bytes()), "{one} {other}");
        }
        // A line twice in place of the next one.
        let mut doubled = lines.clone();
        doubled[1] = lines[0];
        let doubled = doubled.concat();
        assert_eq!(saved_of(doubled.as_bytes()).0, bench);
        assert!(not_checked(doubled.as_bytes()));
    }

    /// A digit in place of another one may be another bench's.
    #[test]
    fn a_bench_changed_to_another_one_is_checked() {
        let (bench, _) = saved_of(b"0142000001\n");
        let (reset, _) = saved_of(b"");
        let changed = bench.replace("\n0142000001", "\n0142000000");
        assert_eq!(changed, reset);
        assert_eq!(verdict_on(changed.as_bytes()).0, PASSES);
    }

    #[test]
    fn a_saved_bench_is_read_whole_before_its_verdict() {
        let (bench, _) = saved_of(b"");
        let fails = || Script(VecDeque::from([Err(ErrorKind::Other.into())]));
        let (mut out, mut told) = (Vec::new(), Vec::new());
        let twice = bench.repeat(2);
        for front in ["", &bench[..100], &bench, &twice[..65_535]] {
            let input = front.as_bytes().chain(fails());
            assert!(verdict(input, &mut out, &mut told).is_err());
        }
        assert_eq!((out, told), (Vec::new(), Vec::new()));
        // What follows 65,536 bytes is not read.
        let input = twice.as_bytes()[..65_536].chain(fails());
        assert!(verdict(input, io::sink(), io::sink()).is_ok());
        assert!(verdict(io::repeat(b'0'), io::sink(), io::sink()).is_ok());
        assert!(verdict(bench.as_bytes(), Full, io::sink()).is_err());
        assert!(verdict(&b""[..], io::sink(), Full).is_err());
    }

    #[test]
    fn nothing_is_saved_after_a_failed_read() {
        let script = [Ok(&b"0300"[..]), Err(ErrorKind::Other.into())];
        let mut out = Vec::new();
        let mut told = Vec::new();
        assert!(save(Script(VecDeque::from(script)), &mut out, &mut told).is_err());
        assert!(save(&b"\n"[..], &mut out, Full).is_err());
        assert_eq!(out, b"");
        assert!(save(&b""[..], Full, &mut told).is_err());
    }

    #[test]
    fn a_failed_write_ends_it() {
        assert!(serve(Program::Rampcard, &b"030000\n"[..], Full).is_err());
        assert!(serve(Program::Rampcard, &b"030000"[..], Full).is_err());
        assert!(serve(Program::Rampcard, &b""[..], Full).is_ok());
    }
}
