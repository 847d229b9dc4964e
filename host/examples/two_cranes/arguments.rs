//! What the program is called with.
use crate::world::Tells;
use std::ffi::OsString;
use std::path::PathBuf;

pub const USAGE: &str = "usage: ./run [-v] [--pcap FILE]    (-v: the calls too; --pcap: the frames as a capture)";

pub struct Arguments {
    pub tells: Tells,
    /// Where the frames are to be written as a capture.
    pub pcap: Option<PathBuf>,
}

impl Arguments {
    /// None if something is not known, is there twice, or has no file.
    pub fn read(mut given: impl Iterator<Item = OsString>) -> Option<Self> {
        let mut arguments = Arguments {
            tells: Tells::Story,
            pcap: None,
        };
        while let Some(argument) = given.next() {
            match argument.to_str()? {
                "-v" if arguments.tells == Tells::Story => arguments.tells = Tells::StoryAndCalls,
                "--pcap" if arguments.pcap.is_none() => arguments.pcap = Some(given.next()?.into()),
                _ => return None,
            }
        }
        Some(arguments)
    }
}
