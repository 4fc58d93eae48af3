use crate::error::{checked, surely, Error};
use crate::service::{NotShared, Signal};
use crate::thread::{nanoseconds, Frame};
use cebdyraq_sys as sys;
use std::marker::PhantomData;
use std::sync::Arc;
use std::time::Duration;

/// Capabilities, as a sum of bits.
pub mod capabilities {
    pub use cebdyraq_sys::{CQ_CAN_POP_FRAME as POP_FRAME, CQ_CAN_SUSPEND as SUSPEND};
}

/// What is told of a thread.
#[derive(Clone, Debug, PartialEq, Eq)]
pub struct ThreadInfo {
    pub name: String,
    pub priority: i32,
}

/// What a trace of several threads tells of one.
#[derive(Clone, Debug, PartialEq, Eq)]
pub struct StackInfo {
    pub thread: u32,
    /// The bits of GetThreadState.
    pub state: u32,
    /// Newest first.
    pub frames: Vec<Frame>,
}

/// Kinds of events.
#[derive(Clone, Copy, Debug, PartialEq, Eq, Hash)]
#[repr(u32)]
pub enum EventKind {
    /// A thread has started.
    ThreadStart = sys::CQ_THREAD_START,
    /// A thread has ended.
    ThreadEnd = sys::CQ_THREAD_END,
    /// A class was defined.
    ClassPrepare = sys::CQ_CLASS_PREPARE,
    /// A thread was attached. It is no event of JVM TI.
    ThreadAttached = sys::CQ_THREAD_ATTACHED,
    /// A thread was given back, and can be let go. It is no event of JVM TI.
    ThreadDetached = sys::CQ_THREAD_DETACHED,
}

impl EventKind {
    const ALL: [EventKind; 5] = [
        EventKind::ThreadStart,
        EventKind::ThreadEnd,
        EventKind::ClassPrepare,
        EventKind::ThreadAttached,
        EventKind::ThreadDetached,
    ];

    fn of(number: u32) -> EventKind {
        Self::ALL.into_iter().find(|kind| *kind as u32 == number).expect("only kinds that were enabled are told")
    }
}

/// An event.
#[derive(Clone, Copy, Debug, PartialEq, Eq, Hash)]
pub struct Event {
    pub kind: EventKind,
    /// The thread's number, or with `ClassPrepare` the class's.
    pub number: u32,
    /// How many events of threads were lost before it, of whatever kind.
    pub lost: u64,
}

/// A call at each thread of a list, with a code for each.
type ListCall = unsafe extern "C" fn(*mut sys::cq_env, *mut sys::cq_signal, *const u32, usize, i64, *mut u32) -> u32;

/// An agent's environment.
///
/// Its calls wait asleep, for ever or for the time that [`Environment::set_timeout`] sets. When it is dropped, it is
/// disposed of. A thread that it suspended stays suspended.
#[derive(Debug)]
pub struct Environment {
    // Boxed, since a handle stays where it is.
    pub(crate) handle: Box<sys::cq_env>,
    pub(crate) signal: Arc<Signal>,
    pub(crate) timeout: Option<Duration>,
    _not_shared: NotShared,
}

// SAFETY: what a handle leads to may go to another thread (cebdyraq.h, what a caller owes).
unsafe impl Send for Environment {}

impl Environment {
    pub(crate) fn new(handle: Box<sys::cq_env>, signal: Arc<Signal>) -> Environment {
        Environment { handle, signal, timeout: None, _not_shared: PhantomData }
    }

    /// How long a call may wait from now on. `None` is for ever.
    ///
    /// When the time is over, the call gives [`Error::TimedOut`] and is cancelled. It may still take place ([`Environment::collect_cancelled`]).
    pub fn set_timeout(&mut self, timeout: Option<Duration>) {
        self.timeout = timeout;
    }

    pub(crate) fn at(&mut self) -> *mut sys::cq_env {
        &mut *self.handle
    }

    pub(crate) fn time(&self) -> i64 {
        nanoseconds(self.timeout)
    }

    // SAFETY of all calls below: the environment is borrowed, so that this call alone uses the handle. Each pointer
    // leads to memory of the size that is given, which nothing else leads to.

    /// Meets the threads that were attached since it last did. Its calls reach these from now on. If it has met 65,536 threads, it
    /// first lets go of those that were given back.
    pub fn meet(&mut self) -> Result<(), Error> {
        checked(unsafe { sys::cq_wait_meet(self.at(), self.signal.at()) })
    }

    /// Whether threads or environments have come or gone, or another environment has met threads that came, since it last
    /// looked, or its last meeting failed. It takes no lock. An environment that was just attached has looked, and has met no thread: it meets once
    /// without news.
    pub fn has_news(&mut self) -> bool {
        unsafe { sys::cq_has_news(self.at()) }
    }

    /// Lets go of a thread that was given back, and says whether it did.
    pub fn let_go(&mut self, thread: u32) -> bool {
        let mut gone = false;
        surely(unsafe { sys::cq_wait_let_go(self.at(), self.signal.at(), thread, &mut gone) });
        gone
    }

    /// Lets go of all threads that were given back and at which none of its calls is out.
    pub fn let_go_of_all(&mut self) {
        surely(unsafe { sys::cq_wait_let_go_of_all(self.at(), self.signal.at()) });
    }

    /// GetAllThreads: the numbers of the threads that are there, in rising order.
    pub fn get_all_threads(&mut self) -> Result<Vec<u32>, Error> {
        let mut threads = vec![0; 64];
        loop {
            let mut count = 0;
            let (at, room) = (threads.as_mut_ptr(), threads.len());
            checked(unsafe { sys::cq_wait_get_all_threads(self.at(), self.signal.at(), at, room, &mut count) })?;
            threads.resize(count as usize, 0);
            if count as usize <= room {
                return Ok(threads);
            }
        }
    }

    /// GetThreadInfo: the thread's name and priority.
    pub fn get_thread_info(&mut self, thread: u32) -> Result<ThreadInfo, Error> {
        let mut name = vec![0; 64];
        loop {
            let mut info = sys::cq_thread_info::default();
            let (at, room) = (name.as_mut_ptr(), name.len());
            checked(unsafe { sys::cq_wait_get_thread_info(self.at(), self.signal.at(), thread, &mut info, at, room) })?;
            name.resize(info.name_length as usize, 0);
            if name.len() <= room {
                let name = String::from_utf8(name).expect("a name is UTF-8");
                return Ok(ThreadInfo { name, priority: info.priority });
            }
        }
    }

    /// GetThreadState: its bits.
    pub fn get_thread_state(&mut self, thread: u32) -> Result<u32, Error> {
        let mut state = 0;
        checked(unsafe {
            sys::cq_wait_get_thread_state(self.at(), self.signal.at(), thread, self.time(), &mut state)
        })?;
        Ok(state)
    }

    /// GetFrameCount.
    pub fn get_frame_count(&mut self, thread: u32) -> Result<u32, Error> {
        let mut count = 0;
        checked(unsafe { sys::cq_wait_get_frame_count(self.at(), self.signal.at(), thread, self.time(), &mut count) })?;
        Ok(count)
    }

    /// GetFrameLocation at a depth, 0 for the newest frame.
    pub fn get_frame_location(&mut self, thread: u32, depth: i32) -> Result<Frame, Error> {
        let mut frame = Frame::default();
        checked(unsafe {
            sys::cq_wait_get_frame_location(self.at(), self.signal.at(), thread, depth, self.time(), &mut frame)
        })?;
        Ok(frame)
    }

    /// GetStackTrace: at most `max_count` frames, newest first, from `start` on. A negative `start` counts from the
    /// oldest.
    pub fn get_stack_trace(&mut self, thread: u32, start: i32, max_count: i32) -> Result<Vec<Frame>, Error> {
        let mut frames = room_for(max_count);
        let mut count = 0;
        let (at, room) = (frames.as_mut_ptr(), frames.len());
        let time = self.time();
        checked(unsafe {
            sys::cq_wait_get_stack_trace(
                self.at(),
                self.signal.at(),
                thread,
                start,
                max_count,
                time,
                at,
                room,
                &mut count,
            )
        })?;
        frames.truncate(count as usize);
        Ok(frames)
    }

    /// GetAllStackTraces: all threads that are alive at one moment, in the order of their numbers. There are at most
    /// `max_count` frames of each, newest first. No thread runs until all were read.
    ///
    /// With [`Error::TimedOut`] all threads run on, and none was read.
    pub fn get_all_stack_traces(&mut self, max_count: i32) -> Result<Vec<StackInfo>, Error> {
        let mut count = 0;
        checked(unsafe {
            sys::cq_wait_get_all_stack_traces(self.at(), self.signal.at(), max_count, self.time(), &mut count)
        })?;
        Ok((0..count).map(|index| self.gathered_stack(index)).collect())
    }

    /// GetThreadListStackTraces: the same of each thread of a list, in the list's order. One that is not alive has no
    /// frames.
    pub fn get_thread_list_stack_traces(&mut self, threads: &[u32], max_count: i32) -> Result<Vec<StackInfo>, Error> {
        let mut count = 0;
        let (at, length, time) = (threads.as_ptr(), threads.len(), self.time());
        checked(unsafe {
            sys::cq_wait_get_thread_list_stack_traces(
                self.at(),
                self.signal.at(),
                at,
                length,
                max_count,
                time,
                &mut count,
            )
        })?;
        Ok((0..count).map(|index| self.gathered_stack(index)).collect())
    }

    /// What the trace that was just made tells of a thread.
    fn gathered_stack(&mut self, index: u64) -> StackInfo {
        let mut info = sys::cq_stack_info::default();
        let mut frames = Vec::new();
        surely(unsafe { sys::cq_gathered_stack(self.at(), index, &mut info, frames.as_mut_ptr(), 0) });
        frames.resize(info.frame_count as usize, Frame::default());
        let (at, room) = (frames.as_mut_ptr(), frames.len());
        surely(unsafe { sys::cq_gathered_stack(self.at(), index, &mut info, at, room) });
        StackInfo { thread: info.thread, state: info.state, frames }
    }

    /// SuspendThread, with [`capabilities::SUSPEND`].
    pub fn suspend_thread(&mut self, thread: u32) -> Result<(), Error> {
        checked(unsafe { sys::cq_wait_suspend_thread(self.at(), self.signal.at(), thread, self.time()) })
    }

    /// ResumeThread, with [`capabilities::SUSPEND`].
    pub fn resume_thread(&mut self, thread: u32) -> Result<(), Error> {
        checked(unsafe { sys::cq_wait_resume_thread(self.at(), self.signal.at(), thread, self.time()) })
    }

    /// SuspendThreadList: a result for each thread. All are asked before the first is waited for. The error is that of the whole
    /// list, and then no thread is suspended.
    pub fn suspend_thread_list(&mut self, threads: &[u32]) -> Result<Vec<Result<(), Error>>, Error> {
        self.each(sys::cq_wait_suspend_thread_list, threads)
    }

    /// ResumeThreadList: a result for each thread. The error is that of the whole list, and then no thread is resumed.
    pub fn resume_thread_list(&mut self, threads: &[u32]) -> Result<Vec<Result<(), Error>>, Error> {
        self.each(sys::cq_wait_resume_thread_list, threads)
    }

    fn each(&mut self, call: ListCall, threads: &[u32]) -> Result<Vec<Result<(), Error>>, Error> {
        let mut codes = vec![0; threads.len()];
        let (at, count, time) = (threads.as_ptr(), threads.len(), self.time());
        checked(unsafe { call(self.at(), self.signal.at(), at, count, time, codes.as_mut_ptr()) })?;
        Ok(codes.into_iter().map(checked).collect())
    }

    /// PopFrame, with [`capabilities::POP_FRAME`].
    pub fn pop_frame(&mut self, thread: u32) -> Result<(), Error> {
        checked(unsafe { sys::cq_wait_pop_frame(self.at(), self.signal.at(), thread, self.time()) })
    }

    /// GetThreadLocalStorage: the environment's word at the thread, 0 at first.
    pub fn get_thread_local_storage(&mut self, thread: u32) -> Result<u64, Error> {
        let mut word = 0;
        checked(unsafe {
            sys::cq_wait_get_thread_local_storage(self.at(), self.signal.at(), thread, self.time(), &mut word)
        })?;
        Ok(word)
    }

    /// SetThreadLocalStorage.
    pub fn set_thread_local_storage(&mut self, thread: u32, word: u64) -> Result<(), Error> {
        checked(unsafe {
            sys::cq_wait_set_thread_local_storage(self.at(), self.signal.at(), thread, word, self.time())
        })
    }

    /// AddCapabilities: all or none.
    pub fn add_capabilities(&mut self, capabilities: u32) -> Result<(), Error> {
        checked(unsafe { sys::cq_add_capabilities(self.at(), capabilities) })
    }

    /// RelinquishCapabilities.
    pub fn relinquish_capabilities(&mut self, capabilities: u32) {
        surely(unsafe { sys::cq_relinquish_capabilities(self.at(), capabilities) });
    }

    /// GetCapabilities.
    pub fn get_capabilities(&mut self) -> u32 {
        let mut found = 0;
        surely(unsafe { sys::cq_get_capabilities(self.at(), &mut found) });
        found
    }

    /// GetPotentialCapabilities.
    pub fn get_potential_capabilities(&mut self) -> u32 {
        let mut found = 0;
        surely(unsafe { sys::cq_get_potential_capabilities(self.at(), &mut found) });
        found
    }

    /// GetEnvironmentLocalStorage: the environment's own word, 0 at first.
    pub fn get_environment_local_storage(&mut self) -> u64 {
        let mut word = 0;
        surely(unsafe { sys::cq_get_environment_local_storage(self.at(), &mut word) });
        word
    }

    /// SetEnvironmentLocalStorage.
    pub fn set_environment_local_storage(&mut self, word: u64) {
        surely(unsafe { sys::cq_set_environment_local_storage(self.at(), word) });
    }

    /// SetEventNotificationMode, of one kind at all threads. It is told of what happens from then on.
    pub fn set_event_notification_mode(&mut self, kind: EventKind, enabled: bool) {
        surely(unsafe { sys::cq_wait_set_event_notification_mode(self.at(), self.signal.at(), enabled, kind as u32) });
    }

    /// The next event. It sleeps until there is one. Events that are disabled never come.
    pub fn next_event(&mut self) -> Result<Event, Error> {
        let mut event = sys::cq_event::default();
        checked(unsafe { sys::cq_wait_next_event(self.at(), self.signal.at(), self.time(), &mut event) })?;
        Ok(Event { kind: EventKind::of(event.kind), number: event.number, lost: event.lost })
    }

    /// DisposeEnvironment. So does a drop, which has no error, and waits as long as it takes. While it may suspend threads or pop frames,
    /// it waits until each thread has reached the calls that are out there.
    ///
    /// The environment comes back with the error. After `TimedOut` it goes on as before. If there is no memory, it can only be
    /// disposed of then.
    pub fn dispose(mut self) -> Result<(), (Error, Environment)> {
        let time = self.time();
        match checked(unsafe { sys::cq_wait_dispose_environment_within(self.at(), self.signal.at(), time) }) {
            Ok(()) => Ok(()),
            Err(error) => Err((error, self)),
        }
    }
}

impl Drop for Environment {
    fn drop(&mut self) {
        // An environment that was disposed of is empty, and refuses.
        unsafe { sys::cq_wait_dispose_environment(self.at(), self.signal.at()) };
    }
}

/// Room for the frames of a trace. A stack has 65,536 frames at most.
pub(crate) fn room_for(max_count: i32) -> Vec<Frame> {
    vec![Frame::default(); max_count.clamp(0, 65536) as usize]
}
