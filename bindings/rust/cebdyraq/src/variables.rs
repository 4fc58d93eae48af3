use crate::error::Error;
use cebdyraq_sys as sys;
use std::ffi::c_void;
use std::fmt;
use std::marker::PhantomData;
use std::panic::{catch_unwind, AssertUnwindSafe};

/// The variables of a runtime, for a debugger (`cq_variables` of `cebdyraq_serve.h`). The server calls these on its own thread.
///
/// The debugger is told [`Error::ThreadNotSuspended`] and [`Error::OutOfMemory`] as they are. Any other error, or a panic, is told as
/// [`Error::AbsentInformation`].
pub trait Variables: Send {
    /// Tells the variables of a method.
    fn of_method(&mut self, method: u32, names: &mut Names<'_>) -> Result<(), Error>;

    /// Tells the values of those that have one in the frame at `depth` of a thread, where 0 is the newest. The frame has to stay as it
    /// is meanwhile, although another environment may resume the thread. If that cannot be had, it is
    /// [`Error::ThreadNotSuspended`].
    fn of_frame(&mut self, thread: u32, depth: u32, values: &mut Values<'_>) -> Result<(), Error>;
}

/// The names of a method's variables, as they are told.
#[derive(Debug)]
pub struct Names<'a>(Teller<'a>);

/// The values of a frame's variables, as they are told. Each function is false if there is no room for a value: it is left out then.
#[derive(Debug)]
pub struct Values<'a>(Teller<'a>);

/// A table that was told, whose entries come now.
#[derive(Debug)]
pub struct Table<'a>(Teller<'a>);

#[derive(Debug)]
struct Teller<'a>(*mut sys::cq_teller, PhantomData<&'a mut sys::cq_teller>);

/// Whether there was room.
fn has_room(code: u32) -> bool {
    debug_assert!(code == sys::CQ_OK || code == sys::CQ_FULL);
    code == sys::CQ_OK
}

impl Names<'_> {
    /// Tells a variable that is visible at `count` locations from `first` on. It is false if there is no room for one more.
    pub fn tell(&mut self, name: &str, slot: u32, first: u32, count: u32) -> bool {
        // SAFETY: the answer is there as long as the borrow, and is one about a method.
        has_room(unsafe { sys::cq_tell_variable(self.0 .0, name.as_ptr(), name.len(), slot, first, count) })
    }
}

impl Values<'_> {
    pub fn nil(&mut self, slot: u32) -> bool {
        // SAFETY: the answer is there as long as the borrow, and is one about a frame. So it is below.
        has_room(unsafe { sys::cq_tell_nil(self.0 .0, slot) })
    }

    pub fn boolean(&mut self, slot: u32, value: bool) -> bool {
        // SAFETY: see `nil`.
        has_room(unsafe { sys::cq_tell_boolean(self.0 .0, slot, value) })
    }

    pub fn integer(&mut self, slot: u32, value: i64) -> bool {
        // SAFETY: see `nil`.
        has_room(unsafe { sys::cq_tell_integer(self.0 .0, slot, value) })
    }

    pub fn number(&mut self, slot: u32, value: f64) -> bool {
        // SAFETY: see `nil`.
        has_room(unsafe { sys::cq_tell_number(self.0 .0, slot, value) })
    }

    /// Tells a text, as a rule in UTF-8.
    pub fn text(&mut self, slot: u32, value: impl AsRef<[u8]>) -> bool {
        let bytes = value.as_ref();
        // SAFETY: see `nil`.
        has_room(unsafe { sys::cq_tell_text(self.0 .0, slot, bytes.as_ptr(), bytes.len()) })
    }

    /// Tells a table without entries, unless there is no room for it.
    pub fn table(&mut self, slot: u32) -> Option<Table<'_>> {
        // SAFETY: see `nil`.
        has_room(unsafe { sys::cq_tell_table(self.0 .0, slot) }).then_some(Table(Teller(self.0 .0, PhantomData)))
    }
}

impl Table<'_> {
    /// Tells an entry, such as `key = value`. It is false if there is no room for it.
    pub fn entry(&mut self, value: impl AsRef<[u8]>) -> bool {
        let bytes = value.as_ref();
        // SAFETY: the answer is there as long as the borrow, and the table or an entry of it was told last.
        has_room(unsafe { sys::cq_tell_entry(self.0 .0, bytes.as_ptr(), bytes.len()) })
    }
}

/// Variables that a server tells. They stay where they are, since the server has their address.
pub(crate) struct Told(Box<Box<dyn Variables>>);

impl fmt::Debug for Told {
    fn fmt(&self, f: &mut fmt::Formatter<'_>) -> fmt::Result {
        f.write_str("Told")
    }
}

impl Told {
    pub(crate) fn new(variables: Box<dyn Variables>) -> Told {
        Told(Box::new(variables))
    }

    /// The functions for a server. They are called as long as it serves.
    pub(crate) fn functions(&mut self) -> sys::cq_variables {
        let context: *mut Box<dyn Variables> = &mut *self.0;
        sys::cq_variables { context: context.cast(), of_method, of_frame }
    }
}

/// What a function of [`Variables`] comes to, as a code.
fn code_of(call: impl FnOnce() -> Result<(), Error>) -> u32 {
    match catch_unwind(AssertUnwindSafe(call)) {
        Ok(Ok(())) => sys::CQ_OK,
        Ok(Err(error)) => error as u32,
        Err(_) => sys::CQ_ABSENT_INFORMATION,
    }
}

unsafe extern "C" fn of_method(context: *mut c_void, method: u32, teller: *mut sys::cq_teller) -> u32 {
    // SAFETY: it is the context of `functions`, which the server's thread alone uses, by one call at a time.
    let variables = unsafe { &mut *context.cast::<Box<dyn Variables>>() };
    code_of(|| variables.of_method(method, &mut Names(Teller(teller, PhantomData))))
}

unsafe extern "C" fn of_frame(context: *mut c_void, thread: u32, depth: u32, teller: *mut sys::cq_teller) -> u32 {
    // SAFETY: as in `of_method`.
    let variables = unsafe { &mut *context.cast::<Box<dyn Variables>>() };
    code_of(|| variables.of_frame(thread, depth, &mut Values(Teller(teller, PhantomData))))
}
