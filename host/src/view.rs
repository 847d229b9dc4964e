//! What a host reaches of a service.
use crate::call::Request;
use crate::ffi::BUFFER_LENGTH;
use crate::info::Received;
use crate::line::LINE_CAPACITY;
use crate::reply::Answer;
use crate::settings::FRAME_LENGTH;
use crate::station::Service;
use crate::wait::Wait;

/// A service as its host sees it: what it waits for, what waits in its line, and of the buffers those that are free. A buffer that is
/// held (`DriverService::is_held`), as that which a radio writes by itself, is none here, for every method. So no host can come
/// near the radio, whatever it does.
///
/// `Station` gives it to the methods of `Host`. A loop of another kind makes it with `new`, for the host that it serves:
///
/// ```
/// # use widosha::*;
/// # let settings = Settings {
/// #     headroom: 2,
/// #     tailroom: 0,
/// #     fcs_length: FcsLength::Two,
/// #     hardware_addr: 1,
/// #     pan_id: 0x1234,
/// #     implicit_broadcast: false,
/// #     ack_buffer: 0,
/// #     spare_buffer: 1,
/// # };
/// let mut pool = Pool::<4>::new();
/// let (mut service, _) = DriverService::start(settings, &mut pool)?;
/// let mut view = HostView::new(&mut service);
/// let length = view.put_frame(2, &[0x61, 0x88, 7]).expect("buffer 2 is free");
/// assert_eq!(view.put_frame(1, &[0x61, 0x88, 7]), None, "the spare buffer is the service's");
///
/// let (start, task) = (Timestamp::BestEffort, Task::Tx { length, cca: true });
/// service.arrive(Request { token: 1, start, buffer: 2, task })?;
/// let mut view = HostView::new(&mut service);
/// assert!(view.is_held(2) && view.frame(2).is_none() && view.frame_mut(2).is_none());
/// # Ok::<(), Error>(())
/// ```
///
/// It has no pointers and no pool:
///
/// ```compile_fail,E0599
/// # use widosha::*;
/// fn steal(view: &HostView) {
///     view.buffer_ptr(2);
/// }
/// ```
pub struct HostView<'a> {
    service: &'a mut dyn Service,
}

impl<'a> HostView<'a> {
    /// Of this service.
    pub fn new(service: &'a mut dyn Service) -> Self {
        Self { service }
    }

    /// Whether a buffer is the service's own, or that of a request that waits or is not answered.
    pub fn is_held(&self, buffer: u8) -> bool {
        self.service.is_held(buffer)
    }

    /// What the service waits for, for logs.
    pub fn wait(&self) -> Option<Wait> {
        self.service.wait()
    }

    /// The requests that wait, the earliest arrival first.
    pub fn waiting(&self) -> [Option<Request>; LINE_CAPACITY] {
        self.service.waiting()
    }

    /// A free buffer's frame: the 127 bytes after the headroom.
    pub fn frame(&self, buffer: u8) -> Option<&[u8; FRAME_LENGTH]> {
        self.free(buffer)?;
        self.service.frame(buffer)
    }

    /// The same to be written.
    pub fn frame_mut(&mut self, buffer: u8) -> Option<&mut [u8; FRAME_LENGTH]> {
        self.free(buffer)?;
        self.service.frame_mut(buffer)
    }

    /// Writes these bytes to the beginning of a free buffer's frame and gives their number. None, and nothing is written, if it is
    /// not free or there are more than 127.
    pub fn put_frame(&mut self, buffer: u8, bytes: &[u8]) -> Option<u16> {
        self.free(buffer)?;
        self.service.put_frame(buffer, bytes)
    }

    /// A free buffer whole, with headroom and tailroom.
    pub fn buffer(&self, buffer: u8) -> Option<&[u8; BUFFER_LENGTH]> {
        self.free(buffer)?;
        self.service.buffer(buffer)
    }

    /// The same to be written.
    pub fn buffer_mut(&mut self, buffer: u8) -> Option<&mut [u8; BUFFER_LENGTH]> {
        self.free(buffer)?;
        self.service.buffer_mut(buffer)
    }

    /// The received frame of an answer with what its header says, as `DriverService::received`: until the buffer, which the answer
    /// made free, is used again.
    pub fn received(&self, answer: &Answer) -> Option<Received<'_>> {
        self.free(answer.buffer)?;
        self.service.received(answer)
    }

    fn free(&self, buffer: u8) -> Option<()> {
        (!self.is_held(buffer)).then_some(())
    }
}
