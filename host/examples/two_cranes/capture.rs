//! The frames of all scenes as a capture: classic pcap with microseconds, link type 195 (IEEE 802.15.4 with FCS).
use crate::air::{Air, DELAY, MICROSECOND};
use std::fs;
use std::io;
use std::path::Path;

/// LINKTYPE_IEEE802_15_4_WITHFCS: each frame ends in its checksum.
const LINK_TYPE: u32 = 195;
const SNAP_LENGTH: u32 = 262_144;

/// Writes every frame of these airs, which are in the order of their scenes, and gives how many there are. Each has the time at
/// which it begins to leave the antenna, as the story has it: scene 1 begins at second 1, scene 2 at second 2. The simulated frames
/// have no checksum (it is the radios' affair); here each gets its own, from the proved library. Where frames overlap, each stands
/// there as it was sent.
pub fn write(path: &Path, airs: &[&Air]) -> io::Result<usize> {
    let frames: Vec<_> = airs.iter().flat_map(|air| &air.frames).collect();
    let mut file = Vec::new();
    let version: [u16; 2] = [2, 4];
    file.extend(0xA1B2_C3D4_u32.to_le_bytes());
    file.extend(version.map(u16::to_le_bytes).concat());
    // Time zone and accuracy are not told.
    file.extend([0, 0, SNAP_LENGTH, LINK_TYPE].map(u32::to_le_bytes).concat());
    for frame in &frames {
        file.extend(record((frame.begin - DELAY) / MICROSECOND, &frame.bytes));
    }
    fs::write(path, file)?;
    Ok(frames.len())
}

/// Seconds and microseconds, the length twice (captured, and on the air), the frame, its checksum.
fn record(microseconds: u64, frame: &[u8]) -> Vec<u8> {
    let checksum = widosha::fcs(frame);
    let length = (frame.len() + checksum.len()) as u32;
    let (second, rest) = (microseconds / 1_000_000, microseconds % 1_000_000);
    let mut record = [second as u32, rest as u32, length, length].map(u32::to_le_bytes).concat();
    record.extend(frame);
    record.extend(checksum);
    record
}
