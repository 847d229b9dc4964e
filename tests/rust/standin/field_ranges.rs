//! Stand-in for where the fields of an MPDU stand: frame control, then the sequence number if there is one, then the addressing
//! fields, as long as their representation says. What else fields/mpdu.rs names is there for the compiler and does nothing.

use core::{marker::PhantomData, num::NonZero, ops::Range};

use dot15d4_driver::radio::{frame::AddressingRepr, DriverConfig};

use crate::{repr::SeqNrRepr, MpduWithAddressing, MpduWithAllFields, MpduWithFrameControl, MpduWithSecurity};

pub struct MpduFieldRanges<State> {
    offset: u8,
    seq_nr: SeqNrRepr,
    addressing_length: Option<u16>,
    state: PhantomData<State>,
}

impl<State> MpduFieldRanges<State> {
    pub fn try_range_frame_control(&self) -> Range<usize> {
        self.offset as usize..self.offset as usize + 2
    }

    pub fn offset_seq_nr(&self) -> NonZero<u16> {
        NonZero::new(self.offset as u16 + 2).unwrap()
    }

    pub fn try_range_addressing(&self) -> Option<Range<usize>> {
        let begin = self.try_range_frame_control().end + self.seq_nr.length() as usize;
        Some(begin..begin + self.addressing_length? as usize)
    }

    fn next<NextState>(self) -> MpduFieldRanges<NextState> {
        MpduFieldRanges {
            offset: self.offset,
            seq_nr: self.seq_nr,
            addressing_length: self.addressing_length,
            state: PhantomData,
        }
    }
}

impl MpduFieldRanges<MpduWithFrameControl> {
    pub fn new(offset: u8, seq_nr: SeqNrRepr) -> Self {
        Self {
            offset,
            seq_nr,
            addressing_length: None,
            state: PhantomData,
        }
    }

    pub fn with_addressing(self, repr: AddressingRepr) -> MpduFieldRanges<MpduWithAddressing> {
        MpduFieldRanges {
            addressing_length: Some(repr.addressing_fields_length()),
            ..self.next()
        }
    }

    pub fn without_addressing(self) -> MpduFieldRanges<MpduWithAddressing> {
        self.next()
    }
}

impl MpduFieldRanges<MpduWithAddressing> {
    pub fn without_security(self) -> MpduFieldRanges<MpduWithSecurity> {
        self.next()
    }
}

impl MpduFieldRanges<MpduWithSecurity> {
    pub fn without_ies_with_payload_length<Config: DriverConfig>(
        self,
        _payload_length: u16,
    ) -> MpduFieldRanges<MpduWithAllFields> {
        self.next()
    }

    pub fn try_without_ies_with_mpdu_length<Config: DriverConfig>(
        self,
        _mpdu_length_wo_fcs: u16,
    ) -> dot15d4_util::Result<MpduFieldRanges<MpduWithAllFields>> {
        unimplemented!()
    }
}

impl MpduFieldRanges<MpduWithAllFields> {
    pub fn try_range_frame_payload(&self) -> Option<Range<usize>> {
        unimplemented!()
    }

    pub fn try_range_fcs(&self) -> Option<Range<usize>> {
        unimplemented!()
    }
}
