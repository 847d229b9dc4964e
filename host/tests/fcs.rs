//! The checksum of frames: the library through C, and the crate's two functions over it, against long division written from the
//! words of request E5.
mod common;
mod model;

use common::library::Guarded;
use common::random::Rng;
use common::{divisor, rounds, seed, stride};
use widosha::{check_fcs, fcs, ffi, Error, Refusal};

/// The bits of bytes in the order in which they are sent: each byte's lowest bit first.
fn bits(bytes: &[u8]) -> Vec<bool> {
    let of_byte = |byte: &u8| {
        let byte = *byte;
        (0..8).map(move |place| byte >> place & 1 == 1)
    };
    bytes.iter().flat_map(of_byte).collect()
}

/// Bits that are sent in this order, as bytes.
fn packed(bits: &[bool]) -> Vec<u8> {
    let byte = |eight: &[bool]| eight.iter().enumerate().map(|(place, bit)| u8::from(*bit) << place).sum();
    bits.chunks(8).map(byte).collect()
}

/// What remains of a polynomial, its highest term first, after division by the one with the terms 16, 12, 5 and 0.
fn remainder(mut dividend: Vec<bool>) -> Vec<bool> {
    let steps = dividend.len() - 16;
    for highest in 0..steps {
        if dividend[highest] {
            for term in [16, 12, 5, 0] {
                let place = highest + 16 - term;
                dividend[place] = !dividend[place];
            }
        }
    }
    dividend.split_off(steps)
}

/// The two bytes that are sent after a message: what remains of the message's polynomial times x to the 16. The start value is
/// zero, so nothing is put before the message; the remainder's highest term is sent first, as the message's is.
fn model_fcs(message: &[u8]) -> [u8; 2] {
    let mut dividend = bits(message);
    dividend.extend([false; 16]);
    packed(&remainder(dividend)).try_into().expect("16 bits")
}

/// The library's FCS between guard bytes, and the crate's, which must be the same. Neither may write a byte.
fn library_fcs(message: &[u8]) -> [u8; 2] {
    let guarded = Guarded::new(message);
    // SAFETY: pointer and length are those of a slice.
    let number = unsafe { ffi::widosha_fcs(guarded.get().as_ptr(), guarded.len()) };
    assert!(guarded.intact() && guarded.get() == message, "a byte was written");
    let sent = fcs(message);
    assert_eq!(sent, [number as u8, (number >> 8) as u8], "low byte first");
    sent
}

fn library_check(frame: &[u8]) -> u8 {
    let guarded = Guarded::new(frame);
    // SAFETY: pointer and length are those of a slice.
    let number = unsafe { ffi::widosha_check_fcs(guarded.get().as_ptr(), guarded.len()) };
    assert!(guarded.intact() && guarded.get() == frame, "a byte was written");
    let expected = match number {
        0 => Ok(true),
        255 => Ok(false),
        14 => Err(Error::Refused(Refusal::FrameLength)),
        _ => panic!("the check returned {number}"),
    };
    assert_eq!(check_fcs(frame), expected);
    number
}

fn random_message(rng: &mut Rng, length: usize) -> Vec<u8> {
    let mut message = vec![0; length];
    rng.fill(&mut message);
    message
}

/// A frame of this length that ends in its checksum by the model.
fn right_frame(rng: &mut Rng, length: usize) -> Vec<u8> {
    let mut frame = random_message(rng, length - 2);
    let fcs = model_fcs(&frame);
    frame.extend(fcs);
    frame
}

/// The request's own example, first of the model.
#[test]
fn example_of_the_request() {
    assert_eq!(model_fcs(&[0x02, 0x00, 0x6a]), [0xe4, 0x79]);
    assert_eq!(library_fcs(&[0x02, 0x00, 0x6a]), [0xe4, 0x79]);
    assert_eq!(library_check(&[0x02, 0x00, 0x6a, 0xe4, 0x79]), 0);
    assert_eq!(library_check(&[0x02, 0x00, 0x6a, 0x79, 0xe4]), 255);
}

/// Each message of two bytes also after zeros, which change no checksum, as the start value is zero: so many that the library takes
/// its way for long slices.
#[test]
fn every_message_of_up_to_two_bytes() {
    assert_eq!(library_fcs(&[]), [0, 0], "nothing remains of nothing");
    let mut made = 1;
    for first in 0..=255 {
        assert_eq!(library_fcs(&[first]), model_fcs(&[first]), "{first:02x}");
        made += 1;
        for second in (0..=255).step_by(stride()) {
            let message = [first, second];
            let right = model_fcs(&message);
            assert_eq!(library_fcs(&message), right, "{message:02x?}");
            let long = [&[0; 200], &message[..]].concat();
            assert_eq!(library_fcs(&long), right, "{message:02x?} after zeros");
            made += 2;
        }
    }
    println!("fcs: {made} messages, all of up to two bytes, and those of two after zeros");
}

#[test]
fn random_messages_of_every_length() {
    let mut rng = Rng::new(seed(40));
    let mut made = 0;
    for length in 0..=300 {
        for _ in 0..rounds(20) {
            let message = random_message(&mut rng, length);
            assert_eq!(library_fcs(&message), model_fcs(&message), "{message:02x?}");
            made += 1;
        }
    }
    for length in [65_535, 65_536, 65_537, 100_000, 100_001] {
        let message = random_message(&mut rng, length);
        assert_eq!(library_fcs(&message), model_fcs(&message), "{length} bytes");
        made += 1;
    }
    println!("fcs: {made} random messages of 0 to 300 bytes and of up to 100,001");
}

/// Refused by the length alone: with the right checksum and with another one.
#[test]
fn check_at_every_length() {
    let mut rng = Rng::new(seed(41));
    let mut made = 0;
    for length in (0..=260).chain([382, 383, 512, 639, 65_535, 65_536, 65_539, 65_663, 65_664]) {
        let refused = !(3..=127).contains(&length);
        let right = if length < 2 {
            random_message(&mut rng, length)
        } else {
            right_frame(&mut rng, length)
        };
        assert_eq!(library_check(&right), if refused { 14 } else { 0 }, "{length} bytes");
        let mut wrong = right;
        if let Some(last) = wrong.last_mut() {
            *last ^= 1;
        }
        assert_eq!(library_check(&wrong), if refused { 14 } else { 255 }, "{length} bytes");
        made += 2;
    }
    println!("fcs: {made} checks of frames of 0 to 260 bytes and of some longer");
}

/// Yes to exactly one of the 65,536 endings, and that is the model's.
#[test]
fn one_ending_is_right() {
    let mut rng = Rng::new(seed(42));
    let mut made = 0u64;
    let every_byte = (0..=255).map(|byte| vec![byte]);
    let longer = [2, 3, 15, 16, 63, 64, 125].map(|length| random_message(&mut rng, length));
    for message in every_byte.chain(longer).step_by(stride()) {
        let right = model_fcs(&message);
        let mut frame = message.clone();
        frame.extend([0, 0]);
        for ending in 0..=u16::MAX {
            let ending = ending.to_le_bytes();
            frame[message.len()..].copy_from_slice(&ending);
            assert_eq!(check_fcs(&frame), Ok(ending == right), "{frame:02x?}");
            made += 1;
        }
    }
    println!("fcs: {made} checks, each message with every ending");
}

/// All 255 other values of each byte, those of one bit among them. A change inside eight bits that follow each other is never a
/// multiple of a polynomial of degree 16 with a term 0, so none may pass.
#[test]
fn every_change_of_one_byte_is_noticed() {
    let mut rng = Rng::new(seed(43));
    let (mut made, mut of_one_bit) = (0u64, 0u64);
    for length in [3, 4, 5, 17, 18, 127] {
        let mut frame = right_frame(&mut rng, length);
        for place in 0..length {
            for change in 1..=255u8 {
                frame[place] ^= change;
                assert_eq!(
                    library_check(&frame),
                    255,
                    "byte {place} changed by {change:02x}: {frame:02x?}"
                );
                frame[place] ^= change;
                made += 1;
                of_one_bit += u64::from(change.is_power_of_two());
            }
        }
        assert_eq!(library_check(&frame), 0);
    }
    assert_eq!(of_one_bit, 8 * (3 + 4 + 5 + 17 + 18 + 127));
    println!("fcs: {made} frames with one byte changed, {of_one_bit} of them by one bit");
}

/// Two bytes exchanged, at any two places: the change is d times (x to the a plus x to the b), d of degree 7 at most. The
/// generator is x + 1 times a primitive polynomial of degree 15, which divides neither d nor, for places this near, the sum; so
/// only equal bytes pass.
#[test]
fn exchanged_bytes_are_noticed() {
    let mut rng = Rng::new(seed(44));
    let (mut made, mut equal) = (0u64, 0u64);
    for length in [3, 5, 18, 127] {
        let mut frame = right_frame(&mut rng, length);
        for first in 0..length {
            for second in first + 1..length {
                let same = frame[first] == frame[second];
                frame.swap(first, second);
                assert_eq!(
                    library_check(&frame),
                    if same { 0 } else { 255 },
                    "{first} and {second}: {frame:02x?}"
                );
                frame.swap(first, second);
                made += 1;
                equal += u64::from(same);
            }
        }
    }
    println!("fcs: {made} frames with two bytes exchanged, in {equal} of which the two are equal");
}

/// Frames that are neither right nor near to it: the check agrees with the model.
#[test]
fn random_frames() {
    let mut rng = Rng::new(seed(45));
    let mut answers = [0u64; 2];
    for _ in 0..rounds(100_000) {
        let length = 3 + rng.below(125);
        let mut frame = right_frame(&mut rng, length);
        for _ in 0..rng.below(4) {
            let place = rng.below(length);
            frame[place] = rng.byte();
        }
        let (rest, ending) = frame.split_at(length - 2);
        let right = model_fcs(rest) == ending;
        assert_eq!(library_check(&frame), if right { 0 } else { 255 }, "{frame:02x?}");
        answers[usize::from(right)] += 1;
    }
    let [no, yes] = answers;
    assert!(divisor().is_some() || (no > 50_000 && yes > 20_000), "{no} no, {yes} yes");
    println!("fcs: {} frames with up to three bytes changed, {yes} right", no + yes);
}

/// A null pointer with length 0 is a slice without bytes.
#[test]
fn null_pointers() {
    // SAFETY: nothing is read through a pointer with length 0.
    unsafe {
        assert_eq!(ffi::widosha_fcs(std::ptr::null(), 0), 0);
        assert_eq!(ffi::widosha_check_fcs(std::ptr::null(), 0), 14);
    }
    assert_eq!(
        (fcs(&[]), check_fcs(&[])),
        ([0, 0], Err(Error::Refused(Refusal::FrameLength)))
    );
}
