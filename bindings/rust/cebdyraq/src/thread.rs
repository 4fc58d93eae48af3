use crate::error::{checked, surely, Error};
use crate::service::{NotShared, Signal};
use cebdyraq_sys as sys;
use std::marker::PhantomData;
use std::sync::atomic::AtomicU64;
use std::sync::Arc;
use std::time::Duration;

pub use sys::cq_frame as Frame;

/// Why a thread blocks.
#[derive(Clone, Copy, Debug, PartialEq, Eq, Hash)]
#[repr(u32)]
pub enum Reason {
    MonitorEnter = sys::CQ_MONITOR_ENTER,
    ObjectWait = sys::CQ_OBJECT_WAIT,
    TimedWait = sys::CQ_TIMED_WAIT,
    Sleep = sys::CQ_SLEEP,
    Park = sys::CQ_PARK,
    TimedPark = sys::CQ_TIMED_PARK,
}

/// Where compiled code looks before it polls: somebody calls for the thread while one of these bits of the word is set.
#[derive(Clone, Copy, Debug)]
pub struct PollWord {
    pub word: *const AtomicU64,
    pub mask: u64,
}

/// A thread in whichever state. When it is dropped it returns, ends and is given back.
#[derive(Debug)]
struct Thread {
    // Boxed, since a handle stays where it is.
    handle: Box<sys::cq_thread>,
    signal: Arc<Signal>,
    number: u32,
    _not_shared: NotShared,
}

// SAFETY: what a handle leads to may go to another thread (cebdyraq.h, what a caller owes).
unsafe impl Send for Thread {}

impl Thread {
    fn at(&mut self) -> *mut sys::cq_thread {
        &mut *self.handle
    }
}

impl Drop for Thread {
    fn drop(&mut self) {
        // SAFETY: this call alone uses the handle. A call that does not fit the thread's state is refused.
        unsafe {
            sys::cq_wait_back(self.at(), self.signal.at(), -1);
            sys::cq_wait_end(self.at(), self.signal.at());
            sys::cq_wait_detach_thread(self.at(), self.signal.at());
        }
    }
}

/// A time in nanoseconds, as the functions of C take it. `None` is for ever.
pub(crate) fn nanoseconds(timeout: Option<Duration>) -> i64 {
    timeout.map_or(-1, |time| i64::try_from(time.as_nanos()).unwrap_or(i64::MAX))
}

/// A thread that has not started. When it is dropped, it is given back.
#[derive(Debug)]
pub struct Fresh(Thread);

/// A thread that runs. It owns its frames, and hands them over when it polls, goes into native code, blocks or ends.
///
/// When it is dropped, it ends and is given back.
#[derive(Debug)]
pub struct Running(Thread);

/// A thread in native code or blocked. Its frames do not change.
///
/// When it is dropped, it returns, ends and is given back. So the drop waits while the thread is suspended.
#[derive(Debug)]
pub struct Safe(Thread);

/// A thread that has ended. When it is dropped, it is given back.
#[derive(Debug)]
pub struct Ended(Thread);

macro_rules! numbers {
    ($($state:ident)*) => { $(
        impl $state {
            /// The thread's number.
            pub fn number(&self) -> u32 {
                self.0.number
            }
        }
    )* };
}

numbers! { Fresh Running Safe Ended }

impl Fresh {
    pub(crate) fn new(mut handle: Box<sys::cq_thread>, signal: Arc<Signal>) -> Fresh {
        let mut number = 0;
        // SAFETY: this call alone uses the handle.
        surely(unsafe { sys::cq_thread_number(&mut *handle, &mut number) });
        Fresh(Thread { handle, signal, number, _not_shared: PhantomData })
    }

    /// Starts the thread: it runs, and is alive.
    pub fn start(mut self) -> Running {
        // SAFETY: this call alone uses the handle.
        surely(unsafe { sys::cq_wait_start(self.0.at(), self.0.signal.at(), -1) });
        Running(self.0)
    }
}

impl Running {
    pub(crate) fn handle(&mut self) -> *mut sys::cq_thread {
        self.0.at()
    }

    pub(crate) fn signal(&self) -> *mut sys::cq_signal {
        self.0.signal.at()
    }

    /// Enters a method at location 0.
    pub fn enter(&mut self, method: u32) -> Result<(), Error> {
        // SAFETY: this call alone uses the handle. So it is with each one below.
        checked(unsafe { sys::cq_enter(self.0.at(), method) })
    }

    /// Enters a native method.
    pub fn enter_native(&mut self, method: u32) -> Result<(), Error> {
        checked(unsafe { sys::cq_enter_native(self.0.at(), method) })
    }

    /// Moves the newest frame to a location.
    pub fn at(&mut self, location: u32) -> Result<(), Error> {
        checked(unsafe { sys::cq_at(self.0.at(), location) })
    }

    /// Leaves the newest frame.
    pub fn leave(&mut self) -> Result<(), Error> {
        checked(unsafe { sys::cq_leave(self.0.at()) })
    }

    /// Replaces all frames by these, newest first. After a pop it is refused until [`Running::take_pops`] has told the runtime.
    pub fn set_frames(&mut self, frames: &[Frame]) -> Result<(), Error> {
        checked(unsafe { sys::cq_set_frames(self.0.at(), frames.as_ptr(), frames.len()) })
    }

    /// Replaces all frames by the newest of these, as many as the service shows. Gives how many were kept.
    pub fn set_newest_frames(&mut self, frames: &[Frame]) -> Result<u64, Error> {
        let mut kept = 0;
        checked(unsafe { sys::cq_set_newest_frames(self.0.at(), frames.as_ptr(), frames.len(), &mut kept) })?;
        Ok(kept)
    }

    /// How many frames the thread has.
    pub fn frame_count(&mut self) -> u64 {
        let mut count = 0;
        surely(unsafe { sys::cq_frame_count(self.0.at(), &mut count) });
        count
    }

    /// How many frames were popped since the last call. From now on they no longer count.
    ///
    /// A runtime that keeps a stack of its own calls it after each poll and each return, takes as many frames off the top of its
    /// stack, and goes on in the frame that is the newest then.
    pub fn take_pops(&mut self) -> u64 {
        let mut count = 0;
        surely(unsafe { sys::cq_take_pops(self.0.at(), &mut count) });
        count
    }

    /// Whether nobody calls for the thread. It is a call with some loads.
    pub fn poll_clear(&mut self) -> bool {
        unsafe { sys::cq_poll_clear(self.0.at()) }
    }

    /// Where compiled code may look in place of `poll_clear`. The word may be read until the thread is given back.
    pub fn poll_word(&mut self) -> PollWord {
        let (mut word, mut mask) = (std::ptr::null(), 0);
        surely(unsafe { sys::cq_poll_word(self.0.at(), &mut word, &mut mask) });
        PollWord { word: word.cast(), mask }
    }

    /// A safepoint. If somebody calls for the thread, it hands over, and sleeps while it is suspended.
    pub fn poll(&mut self) {
        surely(unsafe { sys::cq_wait_poll(self.0.at(), self.0.signal.at()) });
    }

    /// Goes into native code. The newest frame has to be native, otherwise the thread comes back with the error.
    pub fn native(mut self) -> Result<Safe, (Error, Running)> {
        match checked(unsafe { sys::cq_wait_native(self.0.at(), self.0.signal.at()) }) {
            Ok(()) => Ok(Safe(self.0)),
            Err(error) => Err((error, self)),
        }
    }

    /// Blocks. The thread comes back with the error if it has spent its steps.
    pub fn block(mut self, reason: Reason) -> Result<Safe, (Error, Running)> {
        match checked(unsafe { sys::cq_wait_block(self.0.at(), self.0.signal.at(), reason as u32) }) {
            Ok(()) => Ok(Safe(self.0)),
            Err(error) => Err((error, self)),
        }
    }

    /// Ends the thread.
    pub fn end(mut self) -> Ended {
        surely(unsafe { sys::cq_wait_end(self.0.at(), self.0.signal.at()) });
        Ended(self.0)
    }
}

impl Safe {
    /// Returns, and runs. It sleeps while the thread is suspended.
    pub fn back(mut self) -> Running {
        surely(unsafe { sys::cq_wait_back(self.0.at(), self.0.signal.at(), -1) });
        Running(self.0)
    }

    /// Returns, and runs. When the time is over, the thread comes back as it was.
    pub fn back_within(mut self, time: Duration) -> Result<Running, Safe> {
        match unsafe { sys::cq_wait_back(self.0.at(), self.0.signal.at(), nanoseconds(Some(time))) } {
            sys::CQ_TIMED_OUT => Err(self),
            code => {
                surely(code);
                Ok(Running(self.0))
            }
        }
    }
}

impl Ended {
    /// Gives the thread back. So does a drop, which has no error.
    ///
    /// The thread comes back with the error if there is no memory for that.
    pub fn detach(mut self) -> Result<(), (Error, Ended)> {
        match checked(unsafe { sys::cq_wait_detach_thread(self.0.at(), self.0.signal.at()) }) {
            Ok(()) => Ok(()),
            Err(error) => Err((error, self)),
        }
    }
}
