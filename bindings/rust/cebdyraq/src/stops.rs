use crate::classes::settled;
use crate::environment::Environment;
use crate::error::{checked, Error};
use crate::thread::Running;
use cebdyraq_sys as sys;

/// A kind of stop.
#[derive(Clone, Copy, Debug, PartialEq, Eq, Hash)]
#[repr(u32)]
pub enum StopKind {
    Breakpoint = sys::CQ_BREAKPOINT,
    SingleStep = sys::CQ_SINGLE_STEP,
    FramePop = sys::CQ_FRAME_POP,
}

/// A stop of a thread: where it is, and why it stops there.
#[derive(Clone, Copy, Debug, PartialEq, Eq, Hash)]
pub struct Stop {
    pub thread: u32,
    pub method: u32,
    /// -1 if the method is native.
    pub location: i64,
    pub breakpoint: bool,
    pub single_step: bool,
    pub frame_pop: bool,
}

impl Running {
    /// Whether the thread may have to stop at what it reaches next. It takes no lock.
    pub fn may_stop(&mut self) -> bool {
        // SAFETY: this call alone uses the handle. So it is with each one below.
        unsafe { sys::cq_may_stop(self.handle()) }
    }

    /// A number that grows whenever something about stops changes, and whenever a thread or an environment comes or goes.
    pub fn stops_version(&mut self) -> u64 {
        unsafe { sys::cq_stops_version(self.handle()) }
    }

    /// Whether the thread may have to stop in one of `count` methods, from the number `first` on. If not, it does not stop there while
    /// [`Running::stops_version`] is what it was before.
    pub fn may_stop_in(&mut self, first: u32, count: u32) -> Result<bool, Error> {
        let mut may = false;
        settled(|| unsafe { sys::cq_may_stop_in(self.handle(), first, count, &mut may) })?;
        Ok(may)
    }

    /// The thread is at this location of this method. Gives whether it has to stop there, by [`Running::stop`].
    pub fn reached(&mut self, method: u32, location: u32) -> Result<bool, Error> {
        let mut stops = false;
        checked(unsafe { sys::cq_wait_reached(self.handle(), self.signal(), method, location, &mut stops) })?;
        Ok(stops)
    }

    /// The thread is about to leave its newest frame, at this location of this method, and has so many frames with it. Gives whether
    /// it has to stop there, by [`Running::stop`].
    pub fn leaves(&mut self, method: u32, location: u32, frames: u32) -> Result<bool, Error> {
        let mut stops = false;
        checked(unsafe { sys::cq_wait_leaves(self.handle(), self.signal(), method, location, frames, &mut stops) })?;
        Ok(stops)
    }

    /// Stops, until each environment has ended the stop. The thread has given its frames.
    pub fn stop(&mut self) -> Result<(), Error> {
        checked(unsafe { sys::cq_wait_stop(self.handle(), self.signal()) })
    }
}

/// A thread's number for C. `None` is all threads.
fn one_or_all(thread: Option<u32>) -> u32 {
    thread.unwrap_or(sys::CQ_ALL_THREADS)
}

impl Environment {
    /// Asks for stops, or for fewer. Environments that wait for news go on.
    fn ask(&mut self, call: impl Fn(*mut sys::cq_env) -> u32) -> Result<(), Error> {
        settled(|| call(self.at()))?;
        // SAFETY: it is used by atomic steps alone.
        unsafe { sys::cq_wake(self.signal.at()) };
        Ok(())
    }

    /// SetBreakpoint. [`Error::InvalidMethodid`], [`Error::InvalidLocation`], [`Error::Duplicate`].
    pub fn set_breakpoint(&mut self, method: u32, location: u32) -> Result<(), Error> {
        self.ask(|env| unsafe { sys::cq_set_breakpoint(env, method, location) })
    }

    /// ClearBreakpoint. [`Error::InvalidMethodid`], [`Error::InvalidLocation`], [`Error::NotFound`].
    pub fn clear_breakpoint(&mut self, method: u32, location: u32) -> Result<(), Error> {
        self.ask(|env| unsafe { sys::cq_clear_breakpoint(env, method, location) })
    }

    /// SetEventNotificationMode, of a kind of stop, at one thread or at all.
    pub fn set_stop_notification_mode(
        &mut self,
        enabled: bool,
        kind: StopKind,
        thread: Option<u32>,
    ) -> Result<(), Error> {
        let thread = one_or_all(thread);
        self.ask(|env| unsafe { sys::cq_set_stop_notification_mode(env, enabled, kind as u32, thread) })
    }

    /// NotifyFramePop, of the frame that is so many from the oldest, which is 1. [`Error::Duplicate`].
    pub fn notify_frame_pop(&mut self, thread: u32, frames: u32) -> Result<(), Error> {
        self.ask(|env| unsafe { sys::cq_notify_frame_pop(env, thread, frames) })
    }

    /// The next stop. It sleeps until there is one.
    pub fn next_stop(&mut self) -> Result<Stop, Error> {
        let mut stop = sys::cq_stop::default();
        checked(unsafe { sys::cq_wait_next_stop(self.at(), self.signal.at(), self.time(), &mut stop) })?;
        let has = |bit| stop.why & bit != 0;
        Ok(Stop {
            thread: stop.thread,
            method: stop.method,
            location: stop.location,
            breakpoint: has(sys::CQ_STOP_BREAKPOINT),
            single_step: has(sys::CQ_STOP_SINGLE_STEP),
            frame_pop: has(sys::CQ_STOP_FRAME_POP),
        })
    }

    /// Ends the stop of a thread for the environment. [`Error::ThreadNotSuspended`] if it was told of none.
    pub fn end_stop(&mut self, thread: u32) -> Result<(), Error> {
        checked(unsafe { sys::cq_wait_end_stop(self.at(), self.signal.at(), thread) })
    }
}
