//! Threads of a runtime, inspected by agents while other threads run.
//!
//! A runtime makes a [`Service`]. Each of its threads is a value of one of four types: [`Fresh`], [`Running`], [`Safe`]
//! and [`Ended`]. An agent's [`Environment`] asks for a thread's state, stack and word, suspends it and resumes it.
//! What each call does is told in `cebdyraq.h`. Functions with a name of JVM TI 11 do what JVM TI 11 says of it.
//!
//! Each value may go to another thread. None can be shared or cloned, since a handle is used by one call at a time.
//!
//! ```
//! use cebdyraq::{Error, Frame, Service};
//!
//! fn main() -> Result<(), Error> {
//!     let mut service = Service::make(64, 1, 8)?;
//!     let mut running = service.attach_thread("main", 5)?.start();
//!     running.enter(7)?;
//!     running.enter_native(8)?;
//!     let Ok(safe) = running.native() else { panic!("the newest frame is native") };
//!
//!     let mut env = service.attach_environment()?;
//!     env.meet()?;
//!     let number = safe.number();
//!     let trace = env.get_stack_trace(number, 0, 64)?;
//!     assert_eq!(trace, [Frame { method: 8, location: -1 }, Frame { method: 7, location: 0 }]);
//!
//!     let ended = safe.back().end();
//!     assert_eq!(env.get_frame_count(number), Err(Error::ThreadNotAlive));
//!     drop(ended);
//!     assert!(env.let_go(number));
//!     Ok(())
//! }
//! ```
//!
//! A thread that does not run has no step:
//!
//! ```compile_fail,E0599
//! let mut service = cebdyraq::Service::make(64, 1, 8).unwrap();
//! let mut fresh = service.attach_thread("main", 5).unwrap();
//! fresh.enter(7).unwrap();
//! ```
//!
//! Two threads do not use one environment at the same time:
//!
//! ```compile_fail,E0277
//! let mut service = cebdyraq::Service::make(64, 1, 8).unwrap();
//! let env = service.attach_environment().unwrap();
//! std::thread::scope(|scope| {
//!     scope.spawn(|| println!("{:?}", &env));
//! });
//! ```

mod classes;
mod environment;
mod error;
mod posts;
mod server;
mod service;
mod stops;
mod thread;
mod variables;

pub use classes::{ClassInfo, Defined, LineEntry, Lines, MethodInfo, MethodName};
pub use environment::{capabilities, Environment, Event, EventKind, StackInfo, ThreadInfo};
pub use error::Error;
pub use posts::{Answer, Any, Call, CallId, Cancelled, Posted, Ticket};
pub use server::{DebugOptions, ServeError, Server};
pub use service::Service;
pub use stops::{Stop, StopKind};
pub use thread::{Ended, Frame, Fresh, PollWord, Reason, Running, Safe};
pub use variables::{Names, Table, Values, Variables};
