//! The facts of frames cut off anywhere: the header reader through C, and the safe types over it, against the model.
mod common;
mod model;

use common::compare::must_read;
use common::frames::{For, EVERY_FOR};
use common::library::FrameSlices;
use common::random::Rng;
use common::{choose, divisor, frames, rounds, seed, stride};
use model::calls::RawStart;
use model::header::{self, Facts};
use model::settings::Settings as ModelSettings;
use std::collections::BTreeMap;
use widosha::*;

/// First and last byte of control, number, addressing, source PAN, source and end; the first one is 0 if the fact is missing.
const BYTES: [(usize, usize); 6] = [(0, 2), (3, 4), (5, 17), (18, 20), (21, 30), (31, 31)];

/// The bytes of a frame's facts, written over random ones.
fn facts(rng: &mut Rng, frame: &[u8]) -> [u8; 32] {
    let mut before = [0; 32];
    rng.fill(&mut before);
    let mut slices = FrameSlices::new(frame, &before);
    assert_eq!(must_read(&mut slices), 0);
    slices.info.get().try_into().expect("32 bytes")
}

/// Facts only grow: what is there is there, and the same, when more bytes have arrived.
fn assert_grown(fewer: &[u8; 32], more: &[u8; 32], frame: &[u8]) {
    for (first, last) in BYTES {
        let same = fewer[first..=last] == more[first..=last];
        assert!(
            fewer[first] == 0 || same,
            "byte {first}: {fewer:02x?}, then {more:02x?} of {frame:02x?}"
        );
    }
}

/// Every length inside the longest header, two more, and the longest frame.
fn lengths() -> impl Iterator<Item = usize> {
    (0..=25).chain([127])
}

/// 127 bytes that begin with the control: bytes that tell their places, zeros, and random ones.
fn contents(rng: &mut Rng, control: u16) -> [[u8; 127]; 3] {
    let mut all = [std::array::from_fn(|at| 0x80 + at as u8), [0; 127], [0; 127]];
    rng.fill(&mut all[2]);
    all.map(|mut frame| {
        frame[..2].copy_from_slice(&control.to_le_bytes());
        frame
    })
}

#[test]
fn every_control_cut_everywhere() {
    let mut rng = Rng::new(seed(30));
    let mut made = 0;
    let mut there = [0; 6];
    for control in (0..=u16::MAX).step_by(stride()) {
        for frame in contents(&mut rng, control) {
            let mut fewer = [0; 32];
            for length in lengths() {
                let more = facts(&mut rng, &frame[..length]);
                assert_grown(&fewer, &more, &frame[..length]);
                fewer = more;
                made += 1;
            }
            for (count, (first, _)) in there.iter_mut().zip(BYTES) {
                *count += u64::from(fewer[first] != 0);
            }
        }
    }
    if divisor().is_none() {
        // Well formed are 4 types, 3 versions and 3 modes twice, with 7 other bits. Half of version 2's numbers are suppressed. Of
        // the 18 combinations of modes and bit 6, the source has a PAN in 12 of versions 0 and 1 and in 9 of version 2.
        let well_formed = 4 * 3 * 9 * 128;
        let numbered = 4 * 9 * (2 * 128 + 64);
        let source_pans = 4 * 64 * (2 * 12 + 9);
        let expected = [65_536, numbered, well_formed, source_pans, well_formed, well_formed];
        assert_eq!(there, expected.map(|count| 3 * count));
    }
    println!("facts: {made} frames, every control cut off at every length, {there:?} facts of the longest");
}

fn address(address: header::Address) -> Address {
    match address {
        header::Address::Absent => Address::Absent,
        header::Address::Short(short) => Address::Short(short),
        header::Address::Extended(extended) => Address::Extended(extended),
    }
}

/// The model's facts in the crate's types.
fn info(facts: &Facts) -> PreliminaryFrameInfo {
    PreliminaryFrameInfo {
        frame_control: facts.control,
        seq_nr: facts.number,
        addressing_fields: facts.addressing.map(|fields| AddressingFields {
            dst_pan_id: fields.destination_pan,
            dst_address: address(fields.destination),
        }),
        src_pan_id: facts.source_pan,
        src_address: facts.source.map(address),
        addressing_end: facts.end.map(|end| end as u8),
    }
}

#[test]
fn safe_type_of_every_control() {
    let mut rng = Rng::new(seed(31));
    let mut made = 0;
    for control in (0..=u16::MAX).step_by(stride()) {
        for frame in contents(&mut rng, control) {
            for length in lengths() {
                let frame = &frame[..length];
                assert_eq!(PreliminaryFrameInfo::of(frame), info(&header::read(frame)), "{frame:02x?}");
                made += 1;
            }
        }
    }
    println!("facts: {made} frames through the safe type");
}

/// Settings that start accepts with four buffers.
fn four_buffers(rng: &mut Rng) -> ModelSettings {
    let start = loop {
        let start = choose::settings(rng);
        if start.ack_buffer < 4 && start.spare_buffer < 4 {
            break RawStart { count: 4, ..start };
        }
    };
    ModelSettings {
        count: start.count,
        headroom: start.headroom,
        tailroom: start.tailroom,
        fcs: start.fcs_length,
        hardware: start.hardware_addr.to_be_bytes(),
        pan: start.pan_id,
        implicit: start.implicit_broadcast == 1,
        ack: start.ack_buffer,
        spare: start.spare_buffer,
    }
}

/// A header and something after it, cut off anywhere, or any bytes; now and then more of them than a frame has.
fn random_frame(rng: &mut Rng, settings: &ModelSettings) -> Vec<u8> {
    let mut frame = if rng.chance(70) {
        frames::header(rng, settings)
    } else {
        Vec::new()
    };
    let mut rest = vec![0; rng.pick(&[0, 5, 30, 130, 300])];
    rng.fill(&mut rest);
    frame.extend(rest);
    frame.truncate(rng.below(frame.len() + 1));
    frame
}

#[test]
fn random_frames() {
    let mut rng = Rng::new(seed(32));
    let settings = four_buffers(&mut rng);
    let (count, mut there) = (rounds(2_000_000), [0; 6]);
    for _ in 0..count {
        let frame = random_frame(&mut rng, &settings);
        let more = facts(&mut rng, &frame);
        let cut = &frame[..rng.below(frame.len() + 1)];
        let fewer = facts(&mut rng, cut);
        assert_grown(&fewer, &more, &frame);
        assert_eq!(PreliminaryFrameInfo::of(&frame), info(&header::read(&frame)), "{frame:02x?}");
        for (count, (first, _)) in there.iter_mut().zip(BYTES) {
            *count += u64::from(more[first] != 0);
        }
    }
    assert!(
        divisor().is_some() || there.iter().all(|each| *each > count / 10),
        "{there:?}"
    );
    println!("facts: {count} random frames, each whole and cut off, {there:?} facts of the whole ones");
}

/// More bytes than an 8-bit or a 16-bit length holds: the facts are those of the first 23.
#[test]
fn long_slices() {
    let mut rng = Rng::new(seed(33));
    for control in [0x8861u16, 0xdc01, 0xec01, 0xec41, 0x2101, 0x0004] {
        let mut frame = vec![0; 65_536 + 40];
        rng.fill(&mut frame);
        frame[..2].copy_from_slice(&control.to_le_bytes());
        let expected = facts(&mut rng, &frame[..23]);
        for length in (256..=282).chain(65_534..=65_562) {
            assert_eq!(
                facts(&mut rng, &frame[..length]),
                expected,
                "control {control:04x}, {length} bytes"
            );
        }
    }
}

/// What document 01 and E2 say of source PAN, source and end, said outright. The source PAN stands with the number of bytes that it
/// is there from: its own two, or the destination's. Source, addressing and end are there with the last byte; an absent source is
/// there with control.
#[test]
fn source_rows() {
    let (short, extended) = (Address::Short(0xa201), Address::Extended(0xa8a7_a6a5_a4a3_a201));
    let (to_short, to_extended) = (Address::Short(0xd201), Address::Extended(0xd8d7_d6d5_d4d3_d201));
    let (own, shared) = (0x5678, 0x1234);
    let absent = Address::Absent;
    let rows = [
        // Versions 0 and 1.
        (0x0002u16, absent, absent, None, 3),
        (0x0801, to_short, absent, None, 7),
        (0x0841, to_short, absent, None, 7),
        (0x8001, absent, short, Some((own, 5)), 7),
        (0x8041, absent, short, Some((own, 5)), 7),
        (0x8801, to_short, short, Some((own, 9)), 11),
        (0x8861, to_short, short, Some((shared, 5)), 9),
        (0x9841, to_short, short, Some((shared, 5)), 9),
        (0xcc01, to_extended, extended, Some((own, 15)), 23),
        (0xdc01, to_extended, extended, Some((own, 15)), 23),
        (0xcc41, to_extended, extended, Some((shared, 5)), 21),
        // Bit 8 is the number's suppression in version 2 only.
        (0x8961, to_short, short, Some((shared, 5)), 9),
        // Version 2: no addresses, one, two.
        (0x2001, absent, absent, None, 3),
        (0x2041, absent, absent, None, 5),
        (0x2101, absent, absent, None, 2),
        (0x2141, absent, absent, None, 4),
        (0x2801, to_short, absent, None, 7),
        (0x2841, to_short, absent, None, 5),
        (0xa001, absent, short, Some((own, 5)), 7),
        (0xa041, absent, short, None, 5),
        (0xe041, absent, extended, None, 11),
        (0xa801, to_short, short, Some((own, 9)), 11),
        (0xa841, to_short, short, Some((shared, 5)), 9),
        (0xa941, to_short, short, Some((shared, 4)), 8),
        (0xac01, to_extended, short, Some((own, 15)), 17),
        (0xe841, to_short, extended, Some((shared, 5)), 15),
        (0xec01, to_extended, extended, Some((shared, 5)), 21),
        (0xec41, to_extended, extended, None, 19),
    ];
    for (control, destination, source, pan, end) in rows {
        let frame = frame_of(control, destination, source, end);
        for length in 0..=frame.len() {
            let info = PreliminaryFrameInfo::of(&frame[..length]);
            let message = format!("control {control:04x}, {length} bytes");
            let source_from = if source == absent { 2 } else { end };
            assert_eq!(
                info.src_pan_id,
                pan.filter(|pan| length >= pan.1).map(|pan| pan.0),
                "{message}"
            );
            assert_eq!(info.src_address, (length >= source_from).then_some(source), "{message}");
            assert_eq!(info.addressing_end, (length >= end).then_some(end as u8), "{message}");
            let to = info.addressing_fields.map(|fields| fields.dst_address);
            assert_eq!(to, (length >= end).then_some(destination), "{message}");
        }
    }
}

/// The bytes of such a row: number 77, PANs 1234 and 5678, as many as there is room for up to the end, and a payload.
fn frame_of(control: u16, destination: Address, source: Address, end: usize) -> Vec<u8> {
    let bytes = |address: Address| match address {
        Address::Absent => Vec::new(),
        Address::Short(short) => short.to_le_bytes().to_vec(),
        Address::Extended(extended) => extended.to_le_bytes().to_vec(),
    };
    let (destination, source) = (bytes(destination), bytes(source));
    let suppressed = control & 0x3100 == 0x2100;
    let number = if suppressed { vec![] } else { vec![0x77] };
    let room = end - 2 - number.len() - destination.len() - source.len();
    let (shared, own) = match (room, destination.len(), source.len()) {
        (4, _, _) => (&[0x34, 0x12][..], &[0x78, 0x56][..]),
        (2, 0, 1..) => (&[][..], &[0x78, 0x56][..]),
        (2, _, _) => (&[0x34, 0x12][..], &[][..]),
        _ => (&[][..], &[][..]),
    };
    let control = control.to_le_bytes();
    [&control, &number[..], shared, &destination, own, &source, &[0xe1, 0xe2, 0xe3]].concat()
}

/// "Control that is not well formed is the last fact given": type 4, version 3, and mode 1 of either address.
#[test]
fn control_alone() {
    let mut rng = Rng::new(seed(34));
    for control in [0x8844u16, 0xb841, 0x8441, 0x4841, 0xffff] {
        let mut frame = [0; 127];
        rng.fill(&mut frame);
        frame[..2].copy_from_slice(&control.to_le_bytes());
        for length in 0..=127 {
            let expected = PreliminaryFrameInfo {
                frame_control: (length >= 2).then_some(control),
                ..PreliminaryFrameInfo::default()
            };
            assert_eq!(PreliminaryFrameInfo::of(&frame[..length]), expected);
        }
    }
}

fn at(nanoseconds: u64) -> LocalClockInstant {
    LocalClockInstant::from_nanos(nanoseconds)
}

/// A hub that listens, and the model's settings of it.
struct Hub {
    service: DriverService<'static, 4>,
    settings: ModelSettings,
    /// The buffer that it listens with.
    buffer: u8,
    /// Whether the last frame that it heard led to an ACK turn.
    ack_turn: bool,
}

impl Hub {
    fn listening(rng: &mut Rng) -> Hub {
        let settings = four_buffers(rng);
        let (mut service, _) = DriverService::start(
            Settings {
                headroom: settings.headroom,
                tailroom: settings.tailroom,
                fcs_length: if settings.fcs == 2 { FcsLength::Two } else { FcsLength::Four },
                hardware_addr: u64::from_be_bytes(settings.hardware),
                pan_id: settings.pan,
                implicit_broadcast: settings.implicit,
                ack_buffer: settings.ack,
                spare_buffer: settings.spare,
            },
            Box::leak(Box::default()),
        )
        .expect("the settings are in range");
        let buffer = (0..4)
            .find(|buffer| ![settings.ack, settings.spare].contains(buffer))
            .expect("two of four are free");
        let start = Timestamp::BestEffort;
        let task = Task::Rx;
        let request = Request {
            token: 5,
            start,
            buffer,
            task,
        };
        service.arrive(request).expect("the line is empty");
        service.request().expect("a request fits");
        service.entered(TaskResult::Off, at(1)).expect("the radio listens");
        Hub {
            service,
            settings,
            buffer,
            ack_turn: false,
        }
    }

    /// A frame arrives whole, with this link quality: the answer, or none if the frame was not for us and the hub listens on.
    fn hear(&mut self, frame: &[u8], quality: u8) -> Option<Answer> {
        let length = frame.len() as u16;
        self.service.put_frame(self.buffer, &[0xb5; FRAME_LENGTH]);
        self.service.frame_start().expect("it listens");
        self.service.stopped(StopResult::FrameStarted).expect("it stops");
        self.service.put_frame(self.buffer, frame);
        let result = TaskResult::Rx(RxResult::Frame {
            length,
            time: at(7),
            quality,
        });
        let header = self.service.header(length, length + u16::from(self.settings.fcs));
        let action = header.expect("it reads the header").action;
        self.ack_turn = matches!(action, Action::Tx { .. });
        match action {
            Action::Rx { buffer, .. } => self.buffer = buffer,
            Action::TryReceiveRequest(_) => assert!(self.service.none().is_ok()),
            _ => {}
        }
        let reply = self.service.entered(result, at(8)).expect("the frame is there");
        reply.answers.into_iter().next()
    }
}

/// Frames that a service received, some after others that were not for it, so that the buffer is not the request's own.
#[test]
fn received_frames() {
    let mut rng = Rng::new(seed(35));
    let (mut received, mut foreign, mut exchanged, mut sources) = (0, 0, 0, [0; 3]);
    for _ in 0..rounds(30_000) {
        let mut hub = Hub::listening(&mut rng);
        let own = hub.buffer;
        for _ in 0..8 {
            let longest = usize::from(hub.settings.longest());
            let mut frame = frames::header(&mut rng, &hub.settings);
            frame.resize(frame.len() + rng.below(longest - frame.len() + 1), rng.byte());
            let facts = header::read(&frame);
            let quality = rng.byte();
            let answer = hub.hear(&frame, quality);
            assert_eq!(answer.is_some(), header::for_us(&hub.settings, &facts), "{frame:02x?}");
            let Some(answer) = answer else {
                foreign += 1;
                continue;
            };
            assert_eq!(answer.response.quality(), Some(quality), "not that of a frame before it");
            let found = hub.service.received(&answer).expect("a received frame");
            assert_eq!(found.frame, frame);
            assert_eq!(found.info, info(&facts));
            assert_eq!(found.after_addressing(), facts.end.map(|end| &frame[end..]));
            received += 1;
            exchanged += u64::from(answer.buffer != own);
            sources[match found.info.src_address {
                Some(Address::Extended(_)) => 2,
                Some(Address::Short(_)) => 1,
                _ => 0,
            }] += 1;
            break;
        }
    }
    if divisor().is_none() {
        assert!(received > 10_000 && exchanged > 1_000 && sources.iter().all(|each| *each > 1_000));
    }
    println!(
        "facts: {received} received frames, {exchanged} in another buffer, {foreign} not for us, sources by kind: {sources:?}"
    );
}

/// E4 through the safe types: of the frames for us that request an ACK and have a number, a broadcast is received without an ACK
/// turn.
#[test]
fn received_broadcasts() {
    let mut rng = Rng::new(seed(36));
    let mut reached: BTreeMap<For, u64> = BTreeMap::new();
    for _ in 0..rounds(60_000) {
        let mut hub = Hub::listening(&mut rng);
        let frame = frames::header(&mut rng, &hub.settings);
        let quality = rng.byte();
        let answer = hub.hear(&frame, quality);
        let whom = frames::requested(&hub.settings, &frame);
        assert_eq!(hub.ack_turn, matches!(whom, Some(For::Us(_))), "{whom:?}: {frame:02x?}");
        let Some(whom) = whom else { continue };
        let length = frame.len() as u16;
        let response = Response::Received(RxResult::Frame {
            length,
            time: at(7),
            quality,
        });
        assert_eq!(answer.map(|answer| answer.response), Some(response), "{whom:?}: {frame:02x?}");
        // "write it in the ACK frame": the number of a frame with an ACK turn, and of no other.
        let number = if hub.ack_turn { frame[2] } else { 0 };
        let acknowledgement = hub.service.frame(hub.settings.ack).map(|bytes| &bytes[..3]);
        assert_eq!(acknowledgement, Some(&[0x02, 0x10, number][..]), "{whom:?}: {frame:02x?}");
        *reached.entry(whom).or_default() += 1;
    }
    if divisor().is_none() {
        assert_eq!(reached.keys().copied().collect::<Vec<_>>(), EVERY_FOR);
    }
    println!("facts: received frames that request an ACK and have a number: {reached:?}");
}
