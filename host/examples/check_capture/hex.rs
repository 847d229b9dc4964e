//! Lines of hexadecimal pairs, a frame on each.
use super::damage::{Damage, Place, Wrong};
use super::input::Input;
use super::{Data, Frame};

pub struct Hex<'a> {
    input: Input<'a>,
    /// The number of the line that was taken last; the first is 1.
    line: usize,
    /// Whether some pair was read. A text without any, also one of empty lines alone, is of no form that is known.
    some_pair: bool,
}

impl<'a> Hex<'a> {
    pub fn new(file: &'a [u8]) -> Self {
        Self {
            input: Input::new(file),
            line: 0,
            some_pair: false,
        }
    }

    /// The frame of the next line that is not empty; None at the file's end.
    pub fn next_frame(&mut self) -> Result<Option<Frame<'a>>, Damage> {
        while !self.input.rest.is_empty() {
            let line = self.next_line();
            let digits = skip_blanks(line.rest);
            let blanks = line.rest.len().saturating_sub(digits.len());
            let mut pairs = digits;
            while let Some(after) = skip_pair(pairs) {
                self.some_pair = true;
                pairs = skip_blanks(after);
            }
            if !pairs.is_empty() {
                let column = line.rest.len().saturating_sub(pairs.len()).saturating_add(1);
                return Err(self.damage(column));
            }
            if !digits.is_empty() {
                return Ok(Some(Frame {
                    offset: line.at.saturating_add(blanks),
                    line: Some(self.line),
                    original: None,
                    data: Data::Pairs(digits),
                }));
            }
        }
        if self.some_pair {
            Ok(None)
        } else {
            Err(Damage::at_byte(0, Wrong::UnknownForm))
        }
    }

    /// Takes a line with its end, LF or CRLF, which the last one need not have. Gives it without the end.
    fn next_line(&mut self) -> Input<'a> {
        self.line = self.line.saturating_add(1);
        let Input { at, rest } = self.input;
        let length = rest.iter().position(|byte| *byte == b'\n');
        let line = self.input.take(length.unwrap_or(rest.len())).unwrap_or_default();
        match self.input.take(1) {
            Some(_) => Input {
                at,
                rest: line.strip_suffix(b"\r").unwrap_or(line),
            },
            None => Input { at, rest: line },
        }
    }

    fn damage(&self, column: usize) -> Damage {
        let place = Place::Column { line: self.line, column };
        let wrong = if self.some_pair { Wrong::NotAPair } else { Wrong::UnknownForm };
        Damage { place, wrong }
    }
}

/// The next byte of pairs.
pub fn next_byte(pairs: &mut &[u8]) -> Option<u8> {
    let [high, low, after @ ..] = skip_blanks(pairs) else {
        return None;
    };
    *pairs = after;
    Some(digit(*high)? << 4 | digit(*low)?)
}

fn skip_pair(text: &[u8]) -> Option<&[u8]> {
    match text {
        [high, low, after @ ..] if high.is_ascii_hexdigit() && low.is_ascii_hexdigit() => Some(after),
        _ => None,
    }
}

fn skip_blanks(mut text: &[u8]) -> &[u8] {
    while let [b' ' | b'\t', after @ ..] = text {
        text = after;
    }
    text
}

fn digit(letter: u8) -> Option<u8> {
    match letter {
        b'0'..=b'9' => Some(letter - b'0'),
        b'a'..=b'f' => Some(letter - b'a' + 10),
        b'A'..=b'F' => Some(letter - b'A' + 10),
        _ => None,
    }
}
