//! What stands behind the loop: the proved driver service or, in the runs beside it, a model of the documents.
use crate::model::Model;
use std::ptr::NonNull;
use widosha::*;

/// The service's own two, one for each of four requests that wait, two for those that it works on, and one for a request that finds
/// the line full.
pub const BUFFERS: usize = 2 + LINE_CAPACITY + 2 + 1;

pub enum Driver {
    Proved(DriverService<'static, BUFFERS>),
    Model(Box<Model>),
}

impl Driver {
    fn buffers(&self) -> &dyn Buffers {
        match self {
            Driver::Proved(service) => service,
            Driver::Model(model) => &**model,
        }
    }

    fn buffers_mut(&mut self) -> &mut dyn Buffers {
        match self {
            Driver::Proved(service) => service,
            Driver::Model(model) => &mut **model,
        }
    }
}

impl Buffers for Driver {
    fn frame(&self, buffer: u8) -> Option<&[u8; FRAME_LENGTH]> {
        self.buffers().frame(buffer)
    }

    fn frame_mut(&mut self, buffer: u8) -> Option<&mut [u8; FRAME_LENGTH]> {
        self.buffers_mut().frame_mut(buffer)
    }

    fn put_frame(&mut self, buffer: u8, bytes: &[u8]) -> Option<u16> {
        self.buffers_mut().put_frame(buffer, bytes)
    }

    fn buffer(&self, buffer: u8) -> Option<&[u8; ffi::BUFFER_LENGTH]> {
        self.buffers().buffer(buffer)
    }

    fn buffer_mut(&mut self, buffer: u8) -> Option<&mut [u8; ffi::BUFFER_LENGTH]> {
        self.buffers_mut().buffer_mut(buffer)
    }

    fn buffer_ptr(&self, buffer: u8) -> Option<NonNull<[u8; ffi::BUFFER_LENGTH]>> {
        self.buffers().buffer_ptr(buffer)
    }

    fn received(&self, answer: &Answer) -> Option<Received<'_>> {
        self.buffers().received(answer)
    }
}

impl Service for Driver {
    /// Of the proved one, it is looked at that a call on the line changes no byte of the state and gives no answer, and that a refused
    /// one changes nothing.
    fn step(&mut self, call: Call) -> Result<Reply, Error> {
        let service = match self {
            Driver::Proved(service) => service,
            Driver::Model(model) => return model.step(call),
        };
        let (state, line) = (*service.state(), *service.line());
        let result = service.step(call);
        match result {
            Ok(reply) if reply.action == Action::Nothing => {
                assert_eq!((reply.answers, &state), (Answers::None, service.state()));
            }
            Ok(_) => {}
            Err(_) => assert_eq!((&state, &line), (service.state(), service.line())),
        }
        result
    }

    fn wait(&self) -> Option<Wait> {
        match self {
            Driver::Proved(service) => service.wait(),
            Driver::Model(model) => Service::wait(&**model),
        }
    }

    fn waiting(&self) -> [Option<Request>; LINE_CAPACITY] {
        match self {
            Driver::Proved(service) => Service::waiting(service),
            Driver::Model(model) => Service::waiting(&**model),
        }
    }

    fn is_held(&self, buffer: u8) -> bool {
        match self {
            Driver::Proved(service) => service.is_held(buffer),
            Driver::Model(model) => model.is_held(buffer),
        }
    }
}
