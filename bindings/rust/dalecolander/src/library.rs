//! The calls of the library.

extern "C" {
    fn dalecolander_render(request: *const u8, request_length: usize, out: *mut u8, out_length: usize, written: *mut usize) -> u8;
    fn dalecolander_names(request: *const u8, request_length: usize, out: *mut u8, out_length: usize, written: *mut usize) -> u8;
    fn dalecolander_open(
        request: *const u8,
        request_length: usize,
        session: *mut Handle,
        out: *mut u8,
        out_length: usize,
        written: *mut usize,
    ) -> u8;
    fn dalecolander_render_in(
        session: *mut Handle,
        name: *const u8,
        name_length: usize,
        context: *const u8,
        context_length: usize,
        out: *mut u8,
        out_length: usize,
        written: *mut usize,
    ) -> u8;
    fn dalecolander_close(session: *mut Handle);
}

/// Replies that are no longer need one call.
const ROOM: usize = 16 * 1024;

/// A session of the library, or none.
#[repr(C)]
struct Handle {
    at: *mut u8,
}

/// Which function is called.
#[derive(Clone, Copy)]
pub(crate) enum Call {
    Render,
    Names,
}

/// A place for replies, which grows where one does not fit.
struct Place {
    bytes: Vec<u8>,
}

impl Place {
    fn new() -> Place {
        Place { bytes: vec![0; ROOM] }
    }

    // The status and the reply of a call, which is given a place, its length, and where the whole length is written.
    fn reply(&mut self, mut call: impl FnMut(*mut u8, usize, *mut usize) -> u8) -> (u8, &str) {
        let mut written = 0;
        let mut status = call(self.bytes.as_mut_ptr(), self.bytes.len(), &mut written);
        if written > self.bytes.len() {
            self.bytes.resize(written, 0);
            status = call(self.bytes.as_mut_ptr(), self.bytes.len(), &mut written);
        }
        let reply = &self.bytes[..written.min(self.bytes.len())];
        (status, std::str::from_utf8(reply).expect("replies are UTF-8"))
    }
}

/// The status of a request, and its reply.
pub(crate) fn called(call: Call, request: &str) -> (u8, String) {
    let function = match call {
        Call::Render => dalecolander_render,
        Call::Names => dalecolander_names,
    };
    let mut place = Place::new();
    // The slices are not null, the place overlaps neither of the others, and the function writes no further than it ends.
    let (status, reply) = place.reply(|out, room, written| unsafe { function(request.as_ptr(), request.len(), out, room, written) });
    (status, reply.to_owned())
}

/// An open session. It is neither `Send` nor `Sync`, by the pointer that it holds.
pub(crate) struct Opened {
    handle: Handle,
    place: Place,
}

impl Opened {
    /// Opens a session with the templates and the settings of a request; else the status and the reply.
    pub(crate) fn open(request: &str) -> Result<Opened, (u8, String)> {
        let mut handle = Handle { at: std::ptr::null_mut() };
        let mut place = Place::new();
        // As above; and the handle holds no session.
        let (status, reply) =
            place.reply(|out, room, written| unsafe { dalecolander_open(request.as_ptr(), request.len(), &mut handle, out, room, written) });
        match status {
            0 => Ok(Opened { handle, place }),
            _ => Err((status, reply.to_owned())),
        }
    }

    /// The status of a render, and its reply.
    pub(crate) fn render(&mut self, name: &str, context: &str) -> (u8, &str) {
        let handle = &mut self.handle;
        // As above; and the handle holds a session, which was opened on this thread.
        self.place.reply(|out, room, written| unsafe {
            dalecolander_render_in(handle, name.as_ptr(), name.len(), context.as_ptr(), context.len(), out, room, written)
        })
    }
}

impl Drop for Opened {
    fn drop(&mut self) {
        // The handle holds a session, which was opened on this thread.
        unsafe { dalecolander_close(&mut self.handle) }
    }
}
