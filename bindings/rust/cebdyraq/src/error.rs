use cebdyraq_sys as sys;
use std::ffi::{c_char, CStr};
use std::fmt;

macro_rules! errors {
    ($($(#[$doc:meta])* $name:ident = $code:ident)*) => {
        /// Why a call was refused. Those below 200 are errors of JVM TI 11.
        #[derive(Clone, Copy, Debug, PartialEq, Eq, Hash)]
        #[repr(u32)]
        #[non_exhaustive]
        pub enum Error {
            $($(#[$doc])* $name = sys::$code,)*
        }

        impl Error {
            fn of(code: u32) -> Option<Error> {
                match code {
                    $(sys::$code => Some(Error::$name),)*
                    _ => None,
                }
            }
        }
    };
}

// errors: made from the headers by ci/generate.py. Do not edit.
errors! {
    /// There is no thread of this number, or the environment has not met it.
    InvalidThread = CQ_INVALID_THREAD
    /// A resumption or a pop, and the thread is not suspended; or the end of a stop, and it does not stop for the environment.
    ThreadNotSuspended = CQ_THREAD_NOT_SUSPENDED
    /// A suspension, and the thread is suspended.
    ThreadSuspended = CQ_THREAD_SUSPENDED
    /// The thread has not started, or has ended.
    ThreadNotAlive = CQ_THREAD_NOT_ALIVE
    /// No class of this number was defined.
    InvalidClass = CQ_INVALID_CLASS
    /// No method of this number was defined.
    InvalidMethodid = CQ_INVALID_METHODID
    /// There can be no breakpoint at this location of the method.
    InvalidLocation = CQ_INVALID_LOCATION
    /// There is no frame at this depth, or there are fewer than two for a pop.
    NoMoreFrames = CQ_NO_MORE_FRAMES
    /// A pop, and one of the two newest frames is native.
    OpaqueFrame = CQ_OPAQUE_FRAME
    /// The environment has this breakpoint, or asked for this pop, before.
    Duplicate = CQ_DUPLICATE
    /// The environment has no such breakpoint.
    NotFound = CQ_NOT_FOUND
    /// A capability that cannot be had.
    NotAvailable = CQ_NOT_AVAILABLE
    /// The call needs a capability that the environment does not have.
    MustPossessCapability = CQ_MUST_POSSESS_CAPABILITY
    /// The class has no source file, or the method no lines.
    AbsentInformation = CQ_ABSENT_INFORMATION
    /// An argument is out of its range.
    IllegalArgument = CQ_ILLEGAL_ARGUMENT
    /// A native method has no lines.
    NativeMethod = CQ_NATIVE_METHOD
    /// There is no memory for it.
    OutOfMemory = CQ_OUT_OF_MEMORY
    /// The stack has as many frames as the service's depth.
    Overflow = CQ_OVERFLOW
    /// A step needs a frame, and there is none.
    NoFrame = CQ_NO_FRAME
    /// A new location for a native frame.
    NotJavaFrame = CQ_NOT_JAVA_FRAME
    /// A hand-over to native code, and the newest frame is not native.
    NoNativeFrame = CQ_NO_NATIVE_FRAME
    /// The thread has spent its 2^59 steps.
    OwnSpent = CQ_OWN_SPENT
    /// The environment has spent its 2^52 calls at the thread.
    CallsSpent = CQ_CALLS_SPENT
    /// The time is over.
    TimedOut = CQ_TIMED_OUT
    /// A bound other than memory leaves no room for it: the window, `envs`, the 65,536 threads that an environment may have met, or a count that no process reaches.
    Full = CQ_FULL
    /// All frames are to be set, and frames were popped that the runtime has not taken note of (cq_take_pops).
    Popped = CQ_POPPED
}
// end of errors

impl Error {
    /// The name of its code in C, as in `CQ_THREAD_NOT_ALIVE`.
    pub fn name(self) -> &'static str {
        // SAFETY: it takes any number, and its text is static.
        unsafe { static_text(sys::cq_code_name(self as u32)) }
    }

    /// When it comes, as in `the thread has not started, or has ended`.
    pub fn text(self) -> &'static str {
        text_of(self as u32)
    }
}

/// When a code comes.
fn text_of(code: u32) -> &'static str {
    // SAFETY: it takes any number, and its text is static.
    unsafe { static_text(sys::cq_code_text(code)) }
}

/// # Safety
///
/// The text ends with a 0, never changes and is never freed.
unsafe fn static_text(text: *const c_char) -> &'static str {
    CStr::from_ptr(text).to_str().expect("a text is UTF-8")
}

impl fmt::Display for Error {
    fn fmt(&self, f: &mut fmt::Formatter<'_>) -> fmt::Result {
        write!(f, "{} {:?}: {}", *self as u32, self, self.text())
    }
}

impl std::error::Error for Error {}

/// The result of a call with this code.
///
/// # Panics
///
/// If the code is one that the types of this crate rule out.
pub(crate) fn checked(code: u32) -> Result<(), Error> {
    match (code, Error::of(code)) {
        (sys::CQ_OK, _) => Ok(()),
        (_, Some(error)) => Err(error),
        (_, None) => panic!("cebdyraq gave the code {code}: {}", text_of(code)),
    }
}

/// For a call that cannot be refused.
///
/// # Panics
///
/// If it is.
pub(crate) fn surely(code: u32) {
    assert_eq!(code, sys::CQ_OK, "cebdyraq refused a call that cannot be refused: {}", text_of(code));
}
