//! The lines of the story.
use std::fmt;
use std::io::{self, ErrorKind, Write};
use std::process;

/// Prints a line, written as for `println`.
macro_rules! line {
    ($($part:tt)*) => { $crate::output::print(format_args!($($part)*)) };
}
pub(crate) use line;

/// Once nobody reads the lines any more they are dropped, and what the program checks is still checked.
pub fn print(line: fmt::Arguments) {
    match writeln!(io::stdout().lock(), "{line}") {
        Err(error) if error.kind() != ErrorKind::BrokenPipe => {
            complain(&format!("standard output: {error}"));
            process::exit(2);
        }
        _ => {}
    }
}

/// One line on standard error, whatever the name of a file has in it; that it cannot be written changes nothing.
pub fn complain(line: &str) {
    let line = line.replace(char::is_control, "?");
    let _ = writeln!(io::stderr(), "two_cranes: {line}");
}
