//! Which buffers are held, as the bytes of state and line tell. The library decides by its own reading of them (refusal 7); this is
//! for whoever keeps a host from buffers that are not its own.
use crate::ffi::{LINE_LENGTH, STATE_LENGTH};
use crate::line;
use crate::wait::{Asked, Left, Next, Transition, Wait};

/// Whether a buffer is one of the service's own two, or that of a request that has left the line and is not answered, or that of one
/// that waits. If the bytes name no wait, every buffer counts as held.
pub(crate) fn is_held(state: &[u8; STATE_LENGTH], line: &[u8; LINE_LENGTH], buffer: u8) -> bool {
    let Some(wait) = Wait::of(state[17], state[18], state[19]) else {
        return true;
    };
    buffer == state[15]
        || buffer == state[16]
        || works_on_a_request(wait) && buffer == state[24]
        || enters_a_request(wait) && buffer == state[31]
        || line::waiting(line).any(|request| request.buffer == buffer)
}

/// Whether the state has a request that the radio works on or leaves, in its bytes 20 to 26.
const fn works_on_a_request(wait: Wait) -> bool {
    match wait {
        Wait::Asking(Asked::Idle | Asked::SendingAck) => false,
        Wait::Asking(Asked::AfterWindow | Asked::AfterAckWindow | Asked::Receiving | Asked::Sending | Asked::ReceivingAck) => true,
        Wait::Entering(Transition::Request(Left::Off | Left::SendingAck, _)) => false,
        Wait::Entering(Transition::Request(Left::Receiving | Left::Sending | Left::ReceivingAck, _)) => true,
        Wait::Entering(Transition::Rearm | Transition::AckTurn | Transition::AckWait) => true,
        Wait::Listening | Wait::Stopping(_) | Wait::Reading => true,
    }
}

/// Whether it has one whose task the radio enters, in its bytes 27 to 33.
const fn enters_a_request(wait: Wait) -> bool {
    match wait {
        Wait::Entering(Transition::Request(_, next)) => !matches!(next, Next::Off),
        _ => false,
    }
}

#[cfg(test)]
mod tests {
    use super::*;
    use std::vec::Vec;

    const LAYOUTS: &str = include_str!("../../docs/LAYOUTS.md");

    /// The cells of the rows of the table that begins so.
    fn table(head: &str) -> impl Iterator<Item = Vec<&'static str>> + '_ {
        let rows = LAYOUTS.lines().skip_while(move |line| !line.starts_with(head)).skip(2);
        rows.map_while(|row| Some(row.strip_prefix('|')?.split('|').map(str::trim).collect()))
    }

    /// The first number of a cell.
    fn number(cell: &str) -> Option<u8> {
        let begin = cell.find(|c: char| c.is_ascii_digit())?;
        cell[begin..].split(' ').next()?.parse().ok()
    }

    /// Kind, case, and whether bytes 20 to 24 are used.
    fn waits() -> Vec<(u8, u8, bool)> {
        let mut kind = None;
        let row = |row: Vec<&str>| {
            kind = number(row[0]).or(kind);
            (
                kind.expect("the first row has it"),
                number(row[1]).expect("a case"),
                row[2].contains("20 to 2"),
            )
        };
        table("| kind (17) |").map(row).collect()
    }

    fn held(kind: u8, case: u8, entered: u8) -> Vec<u8> {
        let (mut state, mut line) = ([9; STATE_LENGTH], [9; LINE_LENGTH]);
        [state[15], state[16], state[17], state[18], state[19]] = [1, 30, kind, case, entered];
        [state[24], state[31]] = [3, 4];
        // A Tx waits, an Rx behind it, and the third record is free.
        [line[0], line[3], line[24], line[27], line[48], line[51]] = [1, 5, 2, 6, 0, 7];
        (0..=255).filter(|buffer| is_held(&state, &line, *buffer)).collect()
    }

    // The buffers of the bytes that docs/LAYOUTS.md says are used, in each wait, and no other.
    #[test]
    fn held_buffers_are_those_of_the_layouts() {
        let entered: Vec<_> = table("| entered (19)")
            .map(|row| (number(row[0]), row[1].contains("27 to 3")))
            .collect();
        assert_eq!((waits().len(), entered.len()), (21, 4));
        for (kind, case, works_on) in waits() {
            for (entered, enters) in &entered {
                let entered = entered.expect("a code");
                let mut expected = Vec::from([1, 5, 6, 30]);
                expected.extend(works_on.then_some(3));
                expected.extend((kind == 1 && *enters).then_some(4));
                expected.sort_unstable();
                assert_eq!(held(kind, case, entered), expected, "{kind}, {case}, {entered}");
            }
        }
        assert_eq!(held(6, 0, 0).len(), 256, "bytes that name no wait");
    }
}
