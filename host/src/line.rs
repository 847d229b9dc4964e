//! The requests in the waiting line, as its bytes tell. The library alone reads the line to decide; this is for hosts and for logs.
use crate::call::{Request, Task, Timestamp};
use crate::ffi::{self, LINE_LENGTH};
use crate::time::LocalClockInstant;

/// How many requests can wait. One more is refused by 12.
pub const LINE_CAPACITY: usize = ffi::LINE_CAPACITY;

/// What a record says by its first byte, if it is not free. Request E7 of document 02 is to add 3, a place that is held.
const TX_WAITS: u8 = 1;
const RX_WAITS: u8 = 2;

/// Bytes of one record.
const RECORD_LENGTH: usize = LINE_LENGTH / LINE_CAPACITY;

/// The requests that wait, the earliest arrival first: up to the first record that is free.
pub(crate) fn waiting(line: &[u8; LINE_LENGTH]) -> impl Iterator<Item = Request> + '_ {
    line.chunks_exact(RECORD_LENGTH)
        .map_while(|record| request(record.first_chunk()?))
}

/// None for a free record, and for a kind that docs/LAYOUTS.md does not have. Bytes that the kind or the start leaves unused are
/// not looked at.
fn request(record: &[u8; RECORD_LENGTH]) -> Option<Request> {
    let [kind, start, cca, buffer, t0, t1, t2, t3, n0, n1, n2, n3, n4, n5, n6, n7, l0, l1, ..] = *record;
    let task = match kind {
        TX_WAITS => Task::Tx {
            length: u16::from_le_bytes([l0, l1]),
            cca: cca != 0,
        },
        RX_WAITS => Task::Rx,
        _ => return None,
    };
    let start = match start {
        ffi::START_BEST_EFFORT => Timestamp::BestEffort,
        _ => Timestamp::Scheduled(LocalClockInstant::from_nanos(u64::from_le_bytes([
            n0, n1, n2, n3, n4, n5, n6, n7,
        ]))),
    };
    Some(Request {
        token: u32::from_le_bytes([t0, t1, t2, t3]),
        start,
        buffer,
        task,
    })
}

#[cfg(test)]
mod tests {
    use super::*;
    use std::vec::Vec;

    fn of(records: &[&[u8]]) -> Vec<Request> {
        let mut line = [0; LINE_LENGTH];
        for (at, record) in records.iter().enumerate() {
            line[at * 24..at * 24 + record.len()].copy_from_slice(record);
        }
        waiting(&line).collect()
    }

    #[test]
    fn records_are_those_of_the_layouts() {
        let timed: &[u8] = &[1, 1, 1, 9, 4, 3, 2, 1, 8, 7, 6, 5, 4, 3, 2, 0x81, 0x0b, 0];
        let best_effort: &[u8] = &[1, 0, 0, 8, 5, 0, 0, 0, 0, 0, 0, 0, 0, 0, 0, 0, 125, 0];
        let receive: &[u8] = &[2, 1, 0, 7, 6, 0, 0, 0, 9];
        let expected = [
            Request {
                token: 0x0102_0304,
                start: Timestamp::Scheduled(LocalClockInstant::from_nanos(0x8102_0304_0506_0708)),
                buffer: 9,
                task: Task::Tx { length: 11, cca: true },
            },
            Request {
                token: 5,
                start: Timestamp::BestEffort,
                buffer: 8,
                task: Task::Tx { length: 125, cca: false },
            },
            Request {
                token: 6,
                start: Timestamp::Scheduled(LocalClockInstant::from_nanos(9)),
                buffer: 7,
                task: Task::Rx,
            },
        ];
        assert_eq!(of(&[timed, best_effort, receive]), expected);
        assert_eq!(of(&[receive, timed, timed, best_effort]).len(), LINE_CAPACITY);
        assert_eq!(of(&[]), []);
    }

    // Whatever the bytes are, decoding ends without a panic, and at the first record that is no request.
    #[test]
    fn other_bytes_are_no_requests() {
        for kind in 0..=255 {
            let found = of(&[&[2], &[kind, 255, 255, 255], &[1]]);
            let known = kind == 1 || kind == 2;
            assert_eq!(found.len(), if known { 3 } else { 1 }, "kind {kind}");
        }
    }
}
