//! Checks the frames of a capture that was made without a radio's own check: is each one's checksum (FCS) that of its bytes?
//!
//!     check_capture FILE    pcap or pcapng of link type 195 (IEEE 802.15.4 with FCS), or lines of hexadecimal pairs
//!     check_capture -       the same from standard input
//!
//! Prints a line for each frame and a count. Ends with 0 if every frame's answer is yes (also if there is no frame), 1 if some
//! frame's is no or refused, 2 if the capture could not be read to its end. The checksums are those of the proved library.

#[path = "check_capture/reader.rs"]
mod reader;

use reader::damage::Damage;
use reader::{Frame, Reader};
use std::ffi::OsStr;
use std::io::{self, BufWriter, ErrorKind, Read, Write};
use std::process::ExitCode;
use widosha::{Error, Refusal};

/// How many frames had which answer, and of how many the capture did not keep all bytes.
#[derive(Default)]
struct Counts {
    yes: u64,
    no: u64,
    refused: u64,
    cut: u64,
}

impl Counts {
    fn frames(&self) -> u64 {
        self.yes + self.no + self.refused
    }

    fn status(&self) -> u8 {
        u8::from(self.no + self.refused > 0)
    }

    /// The closing line. Cut frames are named only if there are some.
    fn line(&self) -> String {
        let Counts { yes, no, refused, cut } = self;
        let cut = if *cut > 0 {
            format!(", of these cut: {cut}")
        } else {
            String::new()
        };
        format!("frames: {}, yes: {yes}, no: {no}, refused: {refused}{cut}", self.frames())
    }
}

/// Where the lines go. Once nobody reads them they are dropped, and the frames are still counted, for the exit status.
struct Lines<W: Write> {
    out: W,
    closed: bool,
}

impl<W: Write> Lines<W> {
    fn write(&mut self, line: &str) -> io::Result<()> {
        let written = if self.closed { Ok(()) } else { writeln!(self.out, "{line}") };
        self.unless_closed(written)
    }

    fn flush(&mut self) -> io::Result<()> {
        let flushed = if self.closed { Ok(()) } else { self.out.flush() };
        self.unless_closed(flushed)
    }

    fn unless_closed(&mut self, result: io::Result<()>) -> io::Result<()> {
        self.closed |= matches!(&result, Err(error) if error.kind() == ErrorKind::BrokenPipe);
        if self.closed {
            Ok(())
        } else {
            result
        }
    }
}

/// Where the frame stands, as the first columns have it.
fn place(frame: &Frame) -> String {
    match frame.line {
        Some(line) => format!("line {line}"),
        None => format!("byte {}", frame.offset),
    }
}

/// What the library says of these bytes, in words, counted.
fn verdict(bytes: &[u8], counts: &mut Counts) -> String {
    match widosha::check_fcs(bytes) {
        Ok(true) => {
            counts.yes += 1;
            "yes".to_owned()
        }
        Ok(false) => {
            counts.no += 1;
            let (rest, [first, second]) = bytes.split_last_chunk().unwrap_or((&[], &[0, 0]));
            let [low, high] = widosha::fcs(rest);
            format!("no: it ends in {first:02x} {second:02x}, right would be {low:02x} {high:02x}")
        }
        Err(error) => {
            counts.refused += 1;
            match error {
                Error::Refused(Refusal::FrameLength) if bytes.len() < 3 => "refused (14): under 3 bytes".to_owned(),
                Error::Refused(Refusal::FrameLength) => "refused (14): over 127 bytes".to_owned(),
                _ => format!("refused: {error}"),
            }
        }
    }
}

/// What to say where the capture does not hold as many bytes as the frame had, counted.
fn cut(captured: usize, original: Option<u32>, counts: &mut Counts) -> String {
    match original {
        Some(original) if usize::try_from(original) != Ok(captured) => {
            counts.cut += 1;
            format!("; {captured} of {original} bytes captured")
        }
        _ => String::new(),
    }
}

/// A line for each frame, and the count. Damage is what ended the reading before the capture's end.
fn check(file: &[u8], lines: &mut Lines<impl Write>, counts: &mut Counts) -> io::Result<Option<Damage>> {
    let mut bytes = Vec::new();
    let mut damage = None;
    for next in Reader::new(file) {
        let frame = match next {
            Ok(frame) => frame,
            Err(found) => {
                damage = Some(found);
                break;
            }
        };
        bytes.clear();
        bytes.extend(frame.data);
        let verdict = verdict(&bytes, counts);
        let (number, place, length) = (counts.frames(), place(&frame), bytes.len());
        let cut = cut(length, frame.original, counts);
        lines.write(&format!("{number:>6}  {place:<12} length {length:>3}  {verdict}{cut}"))?;
    }
    lines.write(&counts.line())?;
    lines.flush()?;
    Ok(damage)
}

fn load(path: &OsStr) -> io::Result<Vec<u8>> {
    if path != "-" {
        return std::fs::read(path);
    }
    let mut bytes = Vec::new();
    io::stdin().lock().read_to_end(&mut bytes)?;
    Ok(bytes)
}

/// One line on standard error, whatever the name of a file has in it; that it cannot be written changes nothing.
fn complain(line: &str) -> u8 {
    let line = line.replace(char::is_control, "?");
    let _ = writeln!(io::stderr(), "check_capture: {line}");
    2
}

fn run(path: &OsStr) -> u8 {
    let name = match path.to_string_lossy() {
        name if name == "-" => "standard input".into(),
        name => name,
    };
    let file = match load(path) {
        Ok(file) => file,
        Err(error) => return complain(&format!("{name}: {error}")),
    };
    let mut counts = Counts::default();
    let out = BufWriter::new(io::stdout().lock());
    let checked = check(&file, &mut Lines { out, closed: false }, &mut counts);
    match checked {
        Ok(None) => counts.status(),
        Ok(Some(damage)) => complain(&format!("{name}: {damage}")),
        Err(error) => complain(&format!("standard output: {error}")),
    }
}

fn main() -> ExitCode {
    let mut arguments = std::env::args_os().skip(1);
    let status = match (arguments.next(), arguments.next()) {
        (Some(path), None) if path == "-" || !path.as_encoded_bytes().starts_with(b"-") => run(&path),
        _ => complain("give one capture, a path or - for standard input"),
    };
    ExitCode::from(status)
}
