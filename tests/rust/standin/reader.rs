//! Stand-in for the radio's header reader, which is not among the Rust sources at hand: the facts of PreliminaryFrameInfo from
//! the arrived bytes, as document 01 says under "Header facts", with the Rust's own FrameControl, AddressingRepr and
//! AddressingFields. Lengths, validity and addresses are thus the Rust's; only the order of the fields, and that bit 8 counts in
//! version 2 only, are written here.

use crate::radio::{
    frame::{AddressingFields, AddressingRepr, FrameControl, FrameVersion},
    tasks::PreliminaryFrameInfo,
};

#[inline]
pub fn preliminary_frame_info(arrived: &[u8]) -> PreliminaryFrameInfo<'_> {
    let mut info = PreliminaryFrameInfo {
        mpdu_length: 0,
        frame_control: None,
        seq_nr: None,
        addressing_fields: None,
    };
    let [low, high, rest @ ..] = arrived else {
        return info;
    };
    let control = FrameControl::new_unchecked([*low, *high]);
    info.frame_control = Some(control.clone());
    if !control.is_valid() {
        return info;
    }

    let rest = if control.sequence_number_suppression()
        && matches!(control.frame_version(), FrameVersion::Ieee802154)
    {
        rest
    } else {
        let [number, rest @ ..] = rest else {
            return info;
        };
        info.seq_nr = Some(*number);
        rest
    };

    let Ok(repr) = AddressingRepr::try_from_frame_control(control) else {
        return info;
    };
    let Ok(length) = repr.try_addressing_fields_length() else {
        return info;
    };
    let Some(fields) = rest.get(..length as usize) else {
        return info;
    };
    info.addressing_fields = AddressingFields::try_new(fields, repr).ok();
    info
}
