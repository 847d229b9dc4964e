//! Slices at every alignment: lists of calls that reach an accepted call of each exported function, with each slice at each of the 16
//! offsets from a 16-byte boundary, alone and all four together. The returned number and every byte of every slice are those at offset
//! 0, and no byte beside a slice is touched. Of the functions of a frame alone likewise.
use widosha::ffi::{self, *};

/// State, line, reply, pool: pointer and length.
type Four = [(*mut u8, usize); 4];
const COUNT: u8 = 4;
const LENGTHS: [usize; 4] = [STATE_LENGTH, LINE_LENGTH, REPLY_LENGTH, BUFFER_LENGTH * COUNT as usize];
const HEADROOM: u8 = 3;
/// Room for the longest slice at the last offset, with bytes before and after it.
const ROOM: usize = 16 + 15 + 640 + 16;

/// A slice at an offset from a 16-byte boundary, between guard bytes.
#[derive(Clone)]
#[repr(align(16))]
struct Placed {
    bytes: [u8; ROOM],
    begin: usize,
    length: usize,
}

fn guard(at: usize) -> u8 {
    (at as u8).wrapping_mul(41) ^ 0xa5
}

impl Placed {
    fn new(content: &[u8], offset: usize) -> Placed {
        let mut bytes = [0; ROOM];
        for (at, byte) in bytes.iter_mut().enumerate() {
            *byte = guard(at);
        }
        let begin = 16 + offset;
        bytes[begin..begin + content.len()].copy_from_slice(content);
        Placed {
            bytes,
            begin,
            length: content.len(),
        }
    }

    fn get(&self) -> &[u8] {
        &self.bytes[self.begin..self.begin + self.length]
    }

    fn get_mut(&mut self) -> &mut [u8] {
        &mut self.bytes[self.begin..self.begin + self.length]
    }

    fn part(&mut self) -> (*mut u8, usize) {
        let slice = self.get_mut();
        (slice.as_mut_ptr(), slice.len())
    }

    fn offset(&self) -> usize {
        self.get().as_ptr() as usize % 16
    }

    fn intact(&self) -> bool {
        let inside = self.begin..self.begin + self.length;
        let mut beside = self.bytes.iter().enumerate().filter(|(at, _)| !inside.contains(at));
        beside.all(|(at, byte)| *byte == guard(at))
    }
}

/// What happens to the slices: a call with what it returns, or bytes that the radio or the host puts into a buffer's frame.
#[derive(Clone, Copy)]
enum Step {
    Call(&'static str, fn(Four) -> u8, u8),
    Put(usize, &'static [u8]),
}

/// A step from the name of the exported function, what it returns, and its numbers.
macro_rules! call {
    ($function:ident = $returned:expr $(, $number:expr)*) => {
        Step::Call(
            stringify!($function),
            // SAFETY: the pointers come from four separate arrays, with their lengths.
            |[(s, sl), (l, ll), (r, rl), (p, pl)]| unsafe { ffi::$function($($number,)* s, sl, l, ll, r, rl, p, pl) },
            $returned,
        )
    };
}

/// Settings whose numbers are all different, own buffers 0 and 1.
macro_rules! start {
    ($returned:expr, $spare:expr) => {
        call!(
            widosha_start = $returned,
            COUNT,
            HEADROOM,
            2,
            2,
            0x0102_0304_0506_0708,
            0x1234,
            1,
            0,
            $spare
        )
    };
}

const LATE: u64 = 0x0123_4567_89ab_cdef;
/// Data that wants an ACK, number 0x2a: from a cell, and to our short address, which the last two bytes of the hardware address are.
const WEIGHING: &[u8] = &[0x61, 0x88, 0x2a, 0x34, 0x12, 0x00, 0x00, 0x01, 0x00, 0xc0, 0x5d, 0x00];
const FOR_US: &[u8] = &[0x61, 0x88, 0x2a, 0x34, 0x12, 0x08, 0x07, 0x01, 0x00, 0xc0, 0x5d, 0x00];

/// A frame is sent and acknowledged; calls that do not fit, and a withdrawal, on the way.
const SENT: &[Step] = &[
    start!(REFUSAL_OWN_BUFFERS, 0),
    start!(0, 1),
    Step::Put(2, WEIGHING),
    call!(widosha_request = REFUSAL_NOT_ALLOWED),
    call!(widosha_arrive = 0, 0xf1e2_d3c4, DIRECTION_TX, START_AT, LATE, 2, 12, 1),
    call!(widosha_withdraw = REFUSAL_TOKEN_WAITS, 7),
    call!(widosha_withdraw = 0, 0xf1e2_d3c4),
    call!(widosha_arrive = 0, 0xa1b2_c3d4, DIRECTION_TX, START_BEST_EFFORT, 0, 2, 12, 1),
    call!(
        widosha_arrive = REFUSAL_BUFFER_HELD,
        8,
        DIRECTION_RX,
        START_BEST_EFFORT,
        0,
        2,
        0,
        0
    ),
    call!(widosha_request = 0),
    call!(widosha_entered = 0, RESULT_OFF, 0, 0, LATE, 0),
    call!(widosha_entered = REFUSAL_ENTRY_TOO_LATE, RESULT_SENT, 0, LATE, u64::MAX, 0),
    call!(widosha_entered = 0, RESULT_SENT, 0, LATE, LATE + 192_000, 0),
    call!(widosha_stopped = 0, OUTCOME_FRAME_STARTED, 0, 0, 0),
    call!(widosha_none = 0),
    Step::Put(1, &[0x02, 0x00, 0x2a]),
    call!(widosha_entered = 0, RESULT_FRAME, 3, LATE + 544_000, LATE + 544_000, 187),
];

/// Listening: broken off in vain, a frame that is received and acknowledged, one that is rolled back, and a Tx that fails behind one.
const RECEIVED: &[Step] = &[
    start!(0, 1),
    call!(widosha_arrive = 0, 0x0102_0304, DIRECTION_RX, START_BEST_EFFORT, 0, 2, 0, 0),
    call!(widosha_request = 0),
    call!(widosha_entered = 0, RESULT_OFF, 0, 0, 5, 0),
    call!(widosha_arrive = 0, 0x0506_0708, DIRECTION_TX, START_AT, LATE, 3, 9, 1),
    call!(widosha_outbound_seen = REFUSAL_UNFIT, START_AT, LATE + 1, 1),
    call!(widosha_outbound_seen = 0, START_AT, LATE, 1),
    call!(widosha_stopped = 0, OUTCOME_FAILED, 0, 0, 0),
    call!(widosha_frame_start = 0),
    call!(widosha_stopped = 0, OUTCOME_FRAME_STARTED, 0, 0, 0),
    Step::Put(2, FOR_US),
    call!(widosha_header = REFUSAL_RECEIVED_LENGTH, 126, 14),
    call!(widosha_header = 0, 9, 14),
    call!(widosha_rollback = 0),
    call!(widosha_frame_start = 0),
    call!(widosha_stopped = 0, OUTCOME_FRAME_STARTED, 0, 0, 0),
    Step::Put(2, &[0x41]),
    call!(widosha_header = 0, 12, 14),
    call!(widosha_request = 0),
    call!(widosha_fallback = 0, RESULT_FRAME, 12, 77, CAUSE_SCHEDULING_AT, LATE, 58),
];

/// A frame of another PAN: the buffers are exchanged. Then a broadcast ends the window that a Tx had broken off.
const EXCHANGED: &[Step] = &[
    start!(0, 3),
    call!(widosha_arrive = 0, 1, DIRECTION_RX, START_AT, LATE, 2, 0, 0),
    call!(widosha_request = 0),
    call!(widosha_entered = 0, RESULT_OFF, 0, 0, 5, 0),
    call!(widosha_frame_start = 0),
    call!(widosha_stopped = 0, OUTCOME_FRAME_STARTED, 0, 0, 0),
    Step::Put(2, &[0x61, 0x88, 0x2a, 0x35, 0x12, 0x08, 0x07, 0x01, 0x00]),
    call!(widosha_header = 0, 9, 127),
    call!(widosha_entered = 0, RESULT_FRAME, 125, 77, 78, 3),
    Step::Put(1, WEIGHING),
    call!(widosha_arrive = 0, 2, DIRECTION_TX, START_BEST_EFFORT, 0, 1, 12, 0),
    call!(widosha_outbound_seen = 0, START_BEST_EFFORT, 0, 0),
    call!(widosha_stopped = 0, OUTCOME_FRAME, 9, 80, 200),
    call!(widosha_request = 0),
    call!(widosha_fallback = 0, RESULT_OFF, 0, 0, CAUSE_TASK, 0, 0),
];

const LISTS: [&[Step]; 3] = [SENT, RECEIVED, EXCHANGED];

/// The slices after each step of a list, and what each call returned, from slices at these offsets.
fn run(list: &[Step], offsets: [usize; 4]) -> Vec<(u8, [Vec<u8>; 4])> {
    let mut slices = [0, 1, 2, 3].map(|which| {
        let content: Vec<u8> = (0..LENGTHS[which]).map(|at| (at * 7 + which) as u8).collect();
        Placed::new(&content, offsets[which])
    });
    assert_eq!(slices.each_ref().map(Placed::offset), offsets);
    let step = |step: &Step| {
        let returned = match step {
            Step::Call(name, make, expected) => {
                let returned = make(slices.each_mut().map(Placed::part));
                assert_eq!(returned, *expected, "{name} with slices at {offsets:?}");
                returned
            }
            Step::Put(buffer, bytes) => {
                let at = BUFFER_LENGTH * buffer + usize::from(HEADROOM);
                slices[3].get_mut()[at..at + bytes.len()].copy_from_slice(bytes);
                0
            }
        };
        assert!(
            slices.iter().all(Placed::intact),
            "a byte beside a slice, slices at {offsets:?}"
        );
        (returned, slices.each_ref().map(|slice| slice.get().to_vec()))
    };
    list.iter().map(step).collect()
}

/// Each slice alone at each offset, all four at the same one, and all at different ones.
fn all_offsets() -> Vec<[usize; 4]> {
    let alone =
        (0..4).flat_map(|which| (1..16).map(move |offset| [0, 1, 2, 3].map(|slice| if slice == which { offset } else { 0 })));
    let same = (1..16).map(|offset| [offset; 4]);
    let different = (0..16).map(|offset| [0, 1, 6, 11].map(|more| (offset + more) % 16));
    alone.chain(same).chain(different).collect()
}

#[test]
fn calls_at_every_alignment() {
    let mut accepted: Vec<&str> = Vec::new();
    let mut count = 0;
    for list in LISTS {
        let at_boundary = run(list, [0; 4]);
        for step in list {
            if let Step::Call(name, _, 0) = step {
                accepted.push(name);
            }
        }
        for offsets in all_offsets() {
            for (at, (here, there)) in run(list, offsets).iter().zip(&at_boundary).enumerate() {
                assert_eq!(here, there, "step {at}, slices at {offsets:?}");
            }
            count += list.len();
        }
    }
    accepted.sort_unstable();
    accepted.dedup();
    assert_eq!(accepted.len(), 12, "accepted: {accepted:?}");
    println!("alignment: {count} steps of lists of calls, 12 functions accepted");
}

/// Frames of the header reader and the checksums: none, cut off, whole, with every kind of address, and longer than any.
fn some_frames() -> Vec<Vec<u8>> {
    let mut frames = Vec::new();
    for control in [0x8861_u16, 0xdc01, 0xec41, 0xa841, 0x0002, 0xffff] {
        for length in (0..=30).chain([95, 96, 97, 125, 126, 127, 128, 300]) {
            let body = (0..length).map(|at| (at * at + 3 * at + 11) as u8);
            frames.push(control.to_le_bytes().into_iter().chain(body).take(length).collect());
        }
    }
    frames
}

fn facts(frame: &Placed, info: &mut Placed) -> u8 {
    let (to, length) = info.part();
    // SAFETY: the pointers come from two separate arrays, with their lengths.
    unsafe { ffi::widosha_preliminary_frame_info(frame.get().as_ptr(), frame.length, to, length) }
}

fn checksum(frame: &Placed) -> (u16, u8) {
    let bytes = frame.get();
    // SAFETY: the pointer comes from an array, with its length.
    unsafe {
        (
            ffi::widosha_fcs(bytes.as_ptr(), bytes.len()),
            ffi::widosha_check_fcs(bytes.as_ptr(), bytes.len()),
        )
    }
}

#[test]
fn facts_at_every_alignment() {
    let mut count = 0;
    for content in some_frames() {
        let mut first: Option<Vec<u8>> = None;
        for (frame_offset, info_offset) in (0..16).flat_map(|frame| (0..16).map(move |info| (frame, info))) {
            let frame = Placed::new(&content, frame_offset);
            let mut info = Placed::new(&[0x77; INFO_LENGTH], info_offset);
            assert_eq!((frame.offset(), info.offset()), (frame_offset, info_offset));
            assert_eq!(facts(&frame, &mut info), 0);
            assert!(frame.intact() && info.intact() && frame.get() == content);
            let first = first.get_or_insert_with(|| info.get().to_vec());
            assert_eq!(
                info.get(),
                first,
                "{content:02x?}, frame at {frame_offset}, facts at {info_offset}"
            );
            count += 1;
        }
    }
    println!("alignment: {count} reads of facts");
}

#[test]
fn checksums_at_every_alignment() {
    let mut count = 0;
    for mut content in some_frames() {
        // Once with its own checksum behind it, so that the check says yes.
        let [low, high] = checksum(&Placed::new(&content, 0)).0.to_le_bytes();
        for own in [false, true] {
            if own {
                content.extend([low, high]);
            }
            let first = checksum(&Placed::new(&content, 0));
            let length = content.len();
            let said = match (length, own) {
                (3..=127, true) => FCS_YES,
                (3..=127, false) => first.1,
                _ => FCS_REFUSED,
            };
            assert_eq!(first.1, said, "{content:02x?}");
            for offset in 1..16 {
                let frame = Placed::new(&content, offset);
                assert_eq!(checksum(&frame), first, "{content:02x?} at {offset}");
                assert!(frame.offset() == offset && frame.intact() && frame.get() == content);
                count += 1;
            }
        }
    }
    println!("alignment: {count} checksums and checks");
}
