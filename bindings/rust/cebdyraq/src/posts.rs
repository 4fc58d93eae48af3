use crate::classes::settled;
use crate::environment::{room_for, Environment};
use crate::error::{checked, surely, Error};
use crate::thread::{nanoseconds, Frame};
use cebdyraq_sys as sys;
use std::thread::yield_now;

/// A call that may wait for a thread that runs.
#[derive(Clone, Copy, Debug, PartialEq, Eq, Hash)]
pub enum Call {
    FrameCount,
    FrameLocation { depth: i32 },
    StackTrace { start: i32, max_count: i32 },
    Suspend,
    Pop,
}

/// The answer to a call.
#[derive(Clone, Debug, PartialEq, Eq)]
pub enum Answer {
    Count(u32),
    Location(Frame),
    Trace(Vec<Frame>),
    Done,
}

/// A call that is out. It is collected or cancelled by the environment that posted it.
#[derive(Debug)]
#[must_use = "a call is out until it is collected or cancelled"]
pub struct Ticket {
    call: Call,
    raw: sys::cq_ticket,
}

/// Which call it is, among all of all environments.
#[derive(Clone, Copy, Debug, PartialEq, Eq, Hash)]
pub struct CallId(sys::cq_ticket);

/// A call that was cancelled, or whose time was over, and what came of it.
#[derive(Clone, Debug)]
pub struct Cancelled {
    /// Which call it was ([`Ticket::id`]). Nobody has been told the one of a call whose time was over.
    pub id: CallId,
    code: u32,
    raw: sys::cq_answer,
    frames: Vec<Frame>,
}

/// An answer, or the ticket of a call that waits.
#[derive(Debug)]
pub enum Posted {
    Answered(Answer),
    Waiting(Ticket),
}

/// What ended a wait for any of several things.
#[derive(Debug)]
pub enum Any {
    /// The call at this place of the list was answered. Its ticket is no more in the list.
    Answered { index: usize, answer: Result<Answer, Error> },
    /// Threads or environments have come or gone.
    News,
    /// The time is over, and all calls are out as before.
    TimedOut,
}

impl Ticket {
    /// Which call it is.
    pub fn id(&self) -> CallId {
        CallId(self.raw)
    }
}

impl Cancelled {
    /// Whether it has taken place after all, and why not.
    pub fn took_place(&self) -> Result<(), Error> {
        checked(self.code)
    }

    /// The answer to the call, which was this one. A trace has as many frames as there was room for.
    pub fn answer(self, call: Call) -> Result<Answer, Error> {
        checked(self.code).map(|()| call.answer(&self.raw, self.frames))
    }
}

impl Call {
    fn room(self) -> Vec<Frame> {
        match self {
            Call::StackTrace { max_count, .. } => room_for(max_count),
            _ => Vec::new(),
        }
    }

    fn answer(self, raw: &sys::cq_answer, mut frames: Vec<Frame>) -> Answer {
        match self {
            Call::FrameCount => Answer::Count(raw.number as u32),
            Call::FrameLocation { .. } => Answer::Location(raw.frame),
            Call::StackTrace { .. } => {
                frames.truncate(raw.number as usize);
                Answer::Trace(frames)
            }
            Call::Suspend | Call::Pop => Answer::Done,
        }
    }
}

impl Environment {
    fn post_once(&mut self, thread: u32, call: Call, answer: &mut sys::cq_answer, frames: &mut [Frame]) -> u32 {
        let (env, at, room) = (self.at(), frames.as_mut_ptr(), frames.len());
        // SAFETY: this call alone uses the handle, and the frames are there as long as it lasts.
        unsafe {
            match call {
                Call::FrameCount => sys::cq_get_frame_count(env, thread, answer),
                Call::FrameLocation { depth } => sys::cq_get_frame_location(env, thread, depth, answer),
                Call::StackTrace { start, max_count } => {
                    sys::cq_get_stack_trace(env, thread, start, max_count, answer, at, room)
                }
                Call::Suspend => sys::cq_suspend_thread(env, thread, answer),
                Call::Pop => sys::cq_pop_frame(env, thread, answer),
            }
        }
    }

    /// Posts a call, and does not wait for the thread. The answer is there at once if the thread does not run.
    pub fn post(&mut self, thread: u32, call: Call) -> Result<Posted, Error> {
        let mut raw = sys::cq_answer::default();
        let mut frames = call.room();
        loop {
            match self.post_once(thread, call, &mut raw, &mut frames) {
                sys::CQ_BUSY => yield_now(),
                sys::CQ_WAITING => return Ok(Posted::Waiting(Ticket { call, raw: raw.ticket })),
                code => return checked(code).map(|()| Posted::Answered(call.answer(&raw, frames))),
            }
        }
    }

    /// The answer to a call that waited. It sleeps until the answer is there.
    ///
    /// When the time is over, it is [`Posted::Waiting`], and the call is out as before.
    pub fn collect(&mut self, ticket: Ticket) -> Result<Posted, Error> {
        let mut raw = sys::cq_answer::default();
        let mut frames = ticket.call.room();
        let (at, room, time) = (frames.as_mut_ptr(), frames.len(), nanoseconds(self.timeout));
        // SAFETY: this call alone uses the handle, and the frames are there as long as it lasts.
        match unsafe { sys::cq_wait_collect(self.at(), self.signal.at(), &ticket.raw, time, &mut raw, at, room) } {
            sys::CQ_TIMED_OUT => Ok(Posted::Waiting(ticket)),
            code => checked(code).map(|()| Posted::Answered(ticket.call.answer(&raw, frames))),
        }
    }

    /// Waits for the answer to any of these calls, or for news of the list of threads ([`Environment::has_news`]). It gives the
    /// news again until the environment looks, as by [`Environment::meet`].
    pub fn wait_any(&mut self, tickets: &mut Vec<Ticket>) -> Any {
        let raws: Vec<_> = tickets.iter().map(|ticket| ticket.raw).collect();
        let mut frames = tickets.iter().map(|ticket| ticket.call.room()).max_by_key(Vec::len).unwrap_or_default();
        let (mut raw, mut index) = (sys::cq_answer::default(), 0);
        let (at, room, time) = (frames.as_mut_ptr(), frames.len(), nanoseconds(self.timeout));
        let (env, signal) = (self.at(), self.signal.at());
        // SAFETY: this call alone uses the handle, and the tickets and frames are there as long as it lasts.
        match unsafe { sys::cq_wait_any(env, signal, raws.as_ptr(), raws.len(), time, &mut index, &mut raw, at, room) }
        {
            sys::CQ_NONE => Any::News,
            sys::CQ_TIMED_OUT => Any::TimedOut,
            code => {
                let call = tickets.remove(index).call;
                Any::Answered { index, answer: checked(code).map(|()| call.answer(&raw, frames)) }
            }
        }
    }

    /// Cancels a call that waited. It may still take place ([`Environment::collect_cancelled`]).
    pub fn cancel(&mut self, ticket: Ticket) -> Result<(), Error> {
        // SAFETY: this call alone uses the handle.
        checked(unsafe { sys::cq_wait_cancel(self.at(), self.signal.at(), &ticket.raw) })
    }

    /// Discards the answer to the call that was cancelled first at the thread, and says whether it was there.
    pub fn discard(&mut self, thread: u32) -> bool {
        let mut discarded = false;
        // SAFETY: this call alone uses the handle.
        surely(unsafe { sys::cq_wait_discard(self.at(), self.signal.at(), thread, &mut discarded) });
        discarded
    }

    /// What came of the call that was cancelled first at the thread, with room for `max_count` frames. It sleeps until that is known.
    /// `None` if no call that was cancelled is out there. With [`Error::TimedOut`] it is out as before.
    pub fn collect_cancelled(&mut self, thread: u32, max_count: i32) -> Result<Option<Cancelled>, Error> {
        let mut raw = sys::cq_answer::default();
        let mut frames = room_for(max_count);
        let (env, signal, time) = (self.at(), self.signal.at(), nanoseconds(self.timeout));
        let (at, room) = (frames.as_mut_ptr(), frames.len());
        // SAFETY: this call alone uses the handle, and the frames are there as long as it lasts.
        match unsafe { sys::cq_wait_collect_cancelled(env, signal, thread, time, &mut raw, at, room) } {
            sys::CQ_NONE => Ok(None),
            sys::CQ_TIMED_OUT => Err(Error::TimedOut),
            code => Ok(Some(Cancelled { id: CallId(raw.ticket), code, raw, frames })),
        }
    }

    /// Takes back what the environment's suspensions did to the thread, and what those that were cancelled would still do to it. With
    /// [`Error::TimedOut`] the thread has not reached one of them: call again.
    pub fn ensure_resumed(&mut self, thread: u32) -> Result<(), Error> {
        let time = nanoseconds(self.timeout);
        // SAFETY: this call alone uses the handle.
        checked(unsafe { sys::cq_wait_ensure_resumed(self.at(), self.signal.at(), thread, time) })
    }

    /// How many calls of the environment are out at the thread.
    pub fn out_at(&mut self, thread: u32) -> u32 {
        let mut count = 0;
        // SAFETY: this call alone uses the handle.
        surely(unsafe { sys::cq_out_at(self.at(), thread, &mut count) });
        count
    }

    /// The number of the environment whose trace has stopped the thread. `None` if none has.
    ///
    /// [`Error::InvalidThread`], or [`Error::ThreadNotAlive`] if it was let go of.
    pub fn stopper(&mut self, thread: u32) -> Result<Option<u32>, Error> {
        let mut number = None;
        settled(|| {
            let mut found = 0;
            // SAFETY: this call alone uses the handle.
            match unsafe { sys::cq_stopper(self.at(), thread, &mut found) } {
                sys::CQ_NONE => sys::CQ_OK,
                code => {
                    number = Some(found);
                    code
                }
            }
        })?;
        Ok(number)
    }

    /// The environment's number.
    pub fn number(&mut self) -> u32 {
        let mut number = 0;
        // SAFETY: this call alone uses the handle.
        surely(unsafe { sys::cq_environment_number(self.at(), &mut number) });
        number
    }
}
