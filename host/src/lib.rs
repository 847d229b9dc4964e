//! Safe Rust over the proved IEEE 802.15.4 driver service.
//!
//! The service stands between the requests of a MAC and the radio. It is a machine that takes one call at a time: the host or the
//! radio says what happened, and the reply says what the radio or the host is to do next and which requests are answered. Requests
//! arrive in its waiting line, where four can wait, and leave it when the service asks and the host answers with `request`. Beside
//! it stand the header reader, which says of a frame's bytes who sent it and to whom, and `fcs` and `check_fcs`, which work out
//! and check the checksum of a captured frame. The libraries `driver_c` and `frame_c` behind them are written and proved in
//! Rattle; what is proved of them, and what is not, stands in the README of the repository. Here their numbers and byte slices
//! become types: a slice of a wrong length and a code that stands for nothing cannot be written down. Nothing is allocated, and
//! no function panics. That this crate passes each number on as it should is tested, not proved.
//!
//! The frames stand in a [`Pool`] of buffers that the service is lent, so that a radio can read and write them by itself (DMA).
//! [The pool and the radio](#the-pool-and-the-radio) has what is then to be kept.
//!
//! A load cell sends a weighing of 12 bytes that wants an acknowledgement, and gets it:
//!
//! ```
//! use widosha::*;
//!
//! let settings = Settings {
//!     headroom: 0,
//!     tailroom: 0,
//!     fcs_length: FcsLength::Two,
//!     hardware_addr: 0x0011_2233_4455_0001,
//!     pan_id: 0x1234,
//!     implicit_broadcast: false,
//!     ack_buffer: 0,
//!     spare_buffer: 1,
//! };
//! let mut pool = Pool::<3>::new();
//! let (mut cell, first) = DriverService::start(settings, &mut pool)?;
//! assert_eq!(first.action, Action::ReceiveRequest);
//!
//! // Control 8861: data, wants an ACK, one PAN for two short addresses. Number 7, PAN, hub, cell, mass.
//! let frame = [0x61, 0x88, 7, 0x34, 0x12, 0x00, 0x00, 0x01, 0x00, 0xc0, 0x5d, 0x00];
//! let length = cell.put_frame(2, &frame).expect("buffer 2 is there and not the ACK's");
//! let weighing = Request { token: 1, start: Timestamp::BestEffort, buffer: 2, task: Task::Tx { length, cca: true } };
//! cell.arrive(weighing)?;
//! assert_eq!(cell.waiting().next(), Some(weighing));
//! let asked = cell.request()?;
//! assert!(matches!(asked.action, Action::Tx { buffer: 2, length: 12, cca: true, .. }));
//!
//! // The radio sends, then listens for the ACK, at the latest until 10 microseconds after it began to.
//! let at = LocalClockInstant::from_nanos;
//! cell.entered(TaskResult::Off, at(1_000_000))?;
//! let listening = cell.entered(TaskResult::Sent { time: at(1_640_000) }, at(1_832_000))?;
//! assert_eq!(listening.action, Action::Stop(StopListening::At(at(1_842_000))));
//!
//! // A frame starts in time, no other request waits, and the frame turns out to be the ACK for number 7.
//! cell.stopped(StopResult::FrameStarted)?;
//! cell.none()?;
//! cell.put_frame(1, &[0x02, 0x00, 7]);
//! let received = TaskResult::Rx(RxResult::Frame { length: 3, time: at(2_184_000), quality: 187 });
//! let ended = cell.entered(received, at(2_184_000))?;
//! assert_eq!(ended.action, Action::ReceiveRequest);
//! let answer = ended.answers.into_iter().next().expect("the weighing is answered");
//! assert_eq!((answer.token, answer.buffer), (1, 2));
//! assert_eq!(answer.response, Response::Sent { time: at(1_640_000) });
//!
//! // What does not fit is refused and changes nothing.
//! assert_eq!(cell.rollback(), Err(Error::Refused(Refusal::Unfit)));
//! # Ok::<(), Error>(())
//! ```
//!
//! The hub needs no parser of its own: what the header of a received frame says comes with its answer, read by the library. It
//! receives that weighing and learns which cell sent it, and by the link quality how well it was heard:
//!
//! ```
//! # use widosha::*;
//! # let settings = Settings {
//! #     headroom: 0,
//! #     tailroom: 0,
//! #     fcs_length: FcsLength::Two,
//! #     hardware_addr: 0x0011_2233_4455_0000,
//! #     pan_id: 0x1234,
//! #     implicit_broadcast: false,
//! #     ack_buffer: 0,
//! #     spare_buffer: 1,
//! # };
//! # let frame = [0x61, 0x88, 7, 0x34, 0x12, 0x00, 0x00, 0x01, 0x00, 0xc0, 0x5d, 0x00];
//! # let at = LocalClockInstant::from_nanos;
//! let mut pool = Pool::<3>::new();
//! let (mut hub, _) = DriverService::start(settings, &mut pool)?;
//! hub.arrive(Request { token: 5, start: Timestamp::BestEffort, buffer: 2, task: Task::Rx })?;
//! hub.request()?;
//! hub.entered(TaskResult::Off, at(0))?;
//!
//! // A frame starts, and its header is for the hub, which is to send an ACK once the frame is there. For a broadcast it would not.
//! hub.frame_start()?;
//! hub.stopped(StopResult::FrameStarted)?;
//! hub.put_frame(2, &frame);
//! let turn = hub.header(9, 14)?;
//! assert!(matches!(turn.action, Action::Tx { buffer: 0, length: 3, .. }));
//! let received = TaskResult::Rx(RxResult::Frame { length: 12, time: at(1_640_000), quality: 58 });
//! let ended = hub.entered(received, at(1_832_000))?;
//!
//! for answer in ended.answers {
//!     let Some(received) = hub.received(&answer) else { continue };
//!     assert_eq!((received.info.src_pan_id, received.info.src_address), (Some(0x1234), Some(Address::Short(0x0001))));
//!     assert_eq!(received.after_addressing(), Some(&[0xc0, 0x5d, 0x00][..]));
//!     assert_eq!(answer.response.quality(), Some(58));
//! }
//! # assert!(matches!(ended.answers, Answers::One(Answer { token: 5, .. })));
//! # Ok::<(), Error>(())
//! ```
//!
//! # The pool and the radio
//!
//! A buffer is the host's until the request that names it arrives, and again from the answer that returns it or its withdrawal
//! on. Until then it is held. The ACK buffer and the spare buffer are the service's and never the host's; which one is the spare
//! buffer changes. Of the held buffers the radio works on those that an action names:
//!
//! | buffer | is the radio's | and it |
//! |---|---|---|
//! | of `Action::Tx` | from the call that gave the action to the call that tells that it was sent (`TaskResult::Sent`, once the Tx was entered), or to the `fallback` or `rollback` that tells that it was not begun | reads the frame, `length` bytes after the headroom |
//! | of `Action::Rx` | from the call that gave the action to the call that tells what receiving in it came to: `entered` or `fallback` with `TaskResult::Rx`, or `stopped` with `StopResult::RxWindowEnded`, each after the `entered` of this Rx; after `rollback` it still is | writes the frame after the headroom |
//!
//! Headroom, the checksum's place behind the frame, and tailroom are the radio's with it. One buffer can be read and another be
//! written at the same time, as where the ACK is made ready while the frame is still being received. Where an Rx follows while a
//! frame is still being received, the radio has the buffers of both: the `entered` of that Rx ends its turn with the one before, and
//! with its own it begins to receive. No later action has the number of either.
//!
//! While the radio writes a buffer, **no reference to its bytes may live or be made**: neither `frame`, `frame_mut`, `put_frame`,
//! `buffer`, `buffer_mut` and `received` of this buffer, nor `pool`, which is a reference to all of them. While it reads one,
//! none that can write. Such a reference would say to the compiler that nobody else writes (or reads) there. `buffer_ptr` makes
//! none, so it is what a radio is given, nor does any call make one.
//!
//! **Who sees to it.** A host of [`Station`] cannot come near: the methods of [`Host`], and `Station::host_mut`, give it a
//! [`HostView`], in which a buffer that is held is none, and a radio works on held buffers alone. A loop of another kind can give
//! its hosts one too. The methods of [`DriverService`] and [`Buffers`] reach all buffers and are safe, since a radio without DMA
//! copies what arrives by them; and a false event would give a buffer back that the radio still writes. So whoever lets a radio
//! write by itself, in `unsafe` code, keeps the service to itself, and of a station `told`, `radio_mut`, `service` and `into_parts`,
//! tells what the radio did, and answers for that. It keeps the radio to itself too, or has it made by an `unsafe` function alone:
//! [`Radio::begin`] is safe, as are [`Buffers`] and [`Service`], so that whoever has such a radio could have it write anywhere, or
//! start a station over a pool that is gone before it. It need not answer for a host.
//!
//! **The end.** A service that is dropped or forgotten stops no radio, and the pool is its owner's again from the last use of the
//! service on. So the pool of a radio that writes by itself is lent for `'static`, as below; one that is lent for less is safe only
//! if the radio is stopped before the loan ends, on every way out of the function. `into_pool` gives a pool that is lent for
//! `'static` back, for a new start once the radio has been stopped; from a start that is refused it does not come back.
//!
//! The calls read at most these bytes of the pool, and write these and no others:
//!
//! | call | reads | writes |
//! |---|---|---|
//! | `start` | | 02 10 00 into the ACK buffer's frame |
//! | `request`, accepted | the first three bytes of the frame in the buffer of the request that leaves the line (those of a receive request are not looked at) | |
//! | `header`, accepted | the arrived bytes of the listening buffer's frame, of more than 23 the first 23 | if the action is `Tx`: the third byte of the ACK buffer's frame |
//! | `entered` and `fallback`, accepted, that tell a frame where an ACK was awaited | the first three bytes of the buffer in which it was awaited | |
//! | all others, and every call that is refused | | |
//!
//! What is proved takes the slices of a call, the pool among them, to be lent to the call alone. That a radio may write into the
//! other bytes meanwhile rests on this table, which follows from the source, but is no part of a contract: host/tests/dma.rs
//! tests it, on calls in every wait, with the pages before and after these bytes barred.
//!
//! **Fences.** What the radio wrote has to be there before it is read, and what the host or the service wrote before the radio
//! reads it:
//!
//! - After the radio has told by a register that bytes have arrived, or that it has done with a buffer, and before `header`, before
//!   `entered` or `fallback` with any result but `TaskResult::Off`, and before `stopped` with `StopResult::RxWindowEnded`: a fence with
//!   `Ordering::Acquire`. No call reads what a damaged frame or none left in a buffer; but the buffer goes back to a host, which may
//!   read and write it, and a buffer that was sent may be written.
//! - After `start`, `header` and whatever the host has written into a buffer or read of it, and before the register is written by
//!   which the radio begins to send or to receive: a fence with `Ordering::Release`. It keeps what was written before the radio
//!   reads it, and what was read of a returned buffer before the radio writes it.
//! - Before `stopped` with another outcome, `frame_start`, `outbound_seen`, `request`, `none`, `rollback`, `arrive` and `withdraw`:
//!   none. They read no byte that a radio has written, and a buffer that they return is one with which it had done before.
//!
//! Registers are read and written by `read_volatile` and `write_volatile`, which alone order nothing but themselves. On x86-64,
//! for which the libraries are made, `fence(Acquire)` and `fence(Release)` are no instruction and hold the compiler;
//! `compiler_fence` is as good there.
//!
//! ```
//! # use widosha::*;
//! use core::sync::atomic::{fence, Ordering};
//!
//! /// The registers of a radio that reads and writes frames by itself.
//! #[repr(C)]
//! struct Registers {
//!     /// Where the frame begins that is to be sent or received.
//!     frame: *mut u8,
//!     /// 1: receive. 2: send.
//!     begin: u32,
//!     /// How many bytes of a frame have arrived.
//!     arrived: u32,
//! }
//!
//! /// Begins what an action `Tx` or `Rx` asks for with this buffer.
//! fn begin(radio: *mut Registers, service: &DriverService<'_, 4>, buffer: u8, what: u32) -> Option<()> {
//!     let headroom = usize::from(service.settings().headroom);
//!     let frame = service.buffer_ptr(buffer)?.cast::<u8>();
//!     // All that was written into the pool, and read of it, is done before the radio begins.
//!     fence(Ordering::Release);
//!     // SAFETY: the registers are there, and the frame's place lies inside the buffer, which is the radio's from here on.
//!     unsafe {
//!         (&raw mut (*radio).frame).write_volatile(frame.as_ptr().add(headroom));
//!         (&raw mut (*radio).begin).write_volatile(what);
//!     }
//!     Some(())
//! }
//!
//! /// The radio's interrupt while a header is to be read (`Action::ReadHeader`).
//! fn header_has_arrived(radio: *mut Registers, service: &mut DriverService<'_, 4>, length: u16) -> Result<Reply, Error> {
//!     // SAFETY: the registers are there.
//!     let arrived = unsafe { (&raw const (*radio).arrived).read_volatile() };
//!     // The bytes that the radio wrote before it told so are read after this.
//!     fence(Ordering::Acquire);
//!     service.header(arrived as u16, length)
//! }
//! #
//! # // A radio of plain memory: it receives a frame for us that wants an ACK.
//! # let mut registers = Registers { frame: core::ptr::null_mut(), begin: 0, arrived: 0 };
//! # let radio = &raw mut registers;
//! # let settings = Settings {
//! #     headroom: 2,
//! #     tailroom: 0,
//! #     fcs_length: FcsLength::Two,
//! #     hardware_addr: 0x0011_2233_4455_0000,
//! #     pan_id: 0x1234,
//! #     implicit_broadcast: false,
//! #     ack_buffer: 0,
//! #     spare_buffer: 1,
//! # };
//! # let mut pool = Pool::<4>::new();
//! # let (mut hub, _) = DriverService::start(settings, &mut pool)?;
//! # hub.arrive(Request { token: 5, start: Timestamp::BestEffort, buffer: 2, task: Task::Rx })?;
//! # let Action::Rx { buffer, .. } = hub.request()?.action else { panic!("it receives") };
//! # begin(radio, &hub, buffer, 1).expect("the buffer is there");
//! # hub.entered(TaskResult::Off, LocalClockInstant::from_nanos(1))?;
//! # hub.frame_start()?;
//! # hub.stopped(StopResult::FrameStarted)?;
//! # let frame = [0x61, 0x88, 7, 0x34, 0x12, 0x00, 0x00, 0x01, 0x00];
//! # unsafe { (*radio).frame.cast::<[u8; 9]>().write_volatile(frame) };
//! # unsafe { (*radio).arrived = 9 };
//! # let turn = header_has_arrived(radio, &mut hub, 14)?;
//! # assert!(matches!(turn.action, Action::Tx { buffer: 0, length: 3, .. }));
//! # begin(radio, &hub, 0, 2).expect("the buffer is there");
//! # assert_eq!(unsafe { (*radio).frame.cast::<[u8; 3]>().read() }, [0x02, 0x10, 7]);
//! # Ok::<(), Error>(())
//! ```
//!
//! A pool for such a radio is mostly a static, which is lent once and for all. (Without the one unsafe line: a box that is
//! leaked, or a crate for cells that are taken once.)
//!
//! ```
//! # use widosha::*;
//! # fn settings() -> Settings {
//! #     Settings {
//! #         headroom: 2,
//! #         tailroom: 0,
//! #         fcs_length: FcsLength::Two,
//! #         hardware_addr: 1,
//! #         pan_id: 0x1234,
//! #         implicit_broadcast: false,
//! #         ack_buffer: 0,
//! #         spare_buffer: 1,
//! #     }
//! # }
//! static mut POOL: Pool<4> = Pool::new();
//!
//! fn main() -> Result<(), Error> {
//!     // SAFETY: nothing else names POOL, and main is run once.
//!     let pool: &'static mut Pool<4> = unsafe { &mut *&raw mut POOL };
//!     let (service, first) = DriverService::start(settings(), pool)?;
//! #   assert_eq!((service.pool().bytes().len(), first.action), (576, Action::ReceiveRequest));
//!     Ok(())
//! }
//! ```
#![no_std]
#![warn(missing_docs)]
#![deny(unsafe_code)]

#[cfg(test)]
extern crate std;

mod call;
mod error;
mod fcs;
#[allow(unsafe_code)]
pub mod ffi;
mod held;
mod info;
mod lent;
mod line;
mod raw;
mod reply;
mod service;
mod settings;
mod station;
mod time;
mod view;
mod wait;

pub use call::{Call, Cause, Request, RxResult, StopResult, Task, TaskResult, Timestamp};
pub use error::{Error, Refusal};
pub use fcs::{check_fcs, fcs};
pub use info::{Address, AddressingFields, PreliminaryFrameInfo, Received};
pub use line::LINE_CAPACITY;
pub use reply::{Action, Answer, Answers, Ifs, Reply, Response, Spacing, StopListening, TaskDirection};
pub use service::DriverService;
pub use settings::{FcsLength, Pool, Settings, FRAME_LENGTH};
pub use station::{Buffers, Host, HostTask, Radio, RadioEvent, RadioTask, Service, Station};
pub use time::LocalClockInstant;
pub use view::HostView;
pub use wait::{Asked, Left, Next, Stop, Transition, Wait};
