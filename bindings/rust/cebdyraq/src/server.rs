use crate::error::{checked, Error};
use crate::service::{Service, Signal};
use crate::variables::{Told, Variables};
use cebdyraq_sys as sys;
use std::ffi::CString;
use std::sync::Arc;
use std::{fmt, io};

/// Why nothing is served.
#[derive(Debug)]
#[non_exhaustive]
pub enum ServeError {
    /// [`Error::IllegalArgument`]: there is no such address, or it is not one of this machine's own. [`Error::OutOfMemory`],
    /// [`Error::Full`]: the server needs an environment of its own.
    Refused(Error),
    /// The operating system refused a socket, the address or a thread.
    System(io::Error),
}

impl fmt::Display for ServeError {
    fn fmt(&self, f: &mut fmt::Formatter<'_>) -> fmt::Result {
        match self {
            ServeError::Refused(error) => error.fmt(f),
            ServeError::System(error) => error.fmt(f),
        }
    }
}

impl std::error::Error for ServeError {}

impl From<Error> for ServeError {
    fn from(error: Error) -> ServeError {
        ServeError::Refused(error)
    }
}

/// What debuggers may do beside reading stacks, suspensions, breakpoints and steps.
#[derive(Default)]
pub struct DebugOptions {
    /// They are told these variables.
    pub variables: Option<Box<dyn Variables>>,
    /// They may pop frames: the runtime's threads go on without those that were popped.
    pub pops_frames: bool,
    /// The first of them finds all threads suspended. See [`Server::await_resumption`].
    pub starts_suspended: bool,
}

/// A service at a socket (`cebdyraq_serve.h`): over HTTP, for `go tool pprof` and Prometheus, or for debuggers. It serves until it is
/// dropped.
#[derive(Debug)]
pub struct Server {
    // Boxed, since it stays where it is.
    memory: Box<sys::cq_server>,
    _signal: Arc<Signal>,
    _told: Option<Told>,
}

// SAFETY: only `drop` changes it from here on, but for what is under its lock, and nothing else is called then.
unsafe impl Send for Server {}
unsafe impl Sync for Server {}

impl Server {
    /// The port at which it listens, or 0 at a Unix socket.
    pub fn port(&self) -> u16 {
        let mut port = 0;
        // SAFETY: the server serves, and its memory is where it was.
        let code = unsafe { sys::cq_server_port(&*self.memory, &mut port) };
        debug_assert_eq!(code, sys::CQ_OK);
        port
    }

    /// Sleeps until a debugger has resumed a thread. Threads that wait for their first debugger call it while they block, before
    /// their first step.
    ///
    /// # Panics
    ///
    /// If it serves HTTP.
    pub fn await_resumption(&self) -> Result<(), Error> {
        // SAFETY: the server's memory is where it was until it is dropped. This call changes nothing of it but under its lock.
        checked(unsafe { sys::cq_server_await_resumption(&raw const *self.memory as *mut sys::cq_server) })
    }

    /// Tells the debugger of the classes that were defined before. A thread that has defined one calls it while it blocks, before it
    /// runs a method of the class. It comes back once the debugger, which may set breakpoints there, has resumed it. Without a
    /// debugger it returns at once.
    ///
    /// # Panics
    ///
    /// If it serves HTTP.
    pub fn tell_classes(&self) -> Result<(), Error> {
        // SAFETY: as in `await_resumption`.
        checked(unsafe { sys::cq_server_tell_classes(&raw const *self.memory as *mut sys::cq_server) })
    }
}

impl Drop for Server {
    fn drop(&mut self) {
        // SAFETY: this call alone uses it. If there is no memory to dispose of the environment, it stays attached.
        unsafe { sys::cq_serve_end(&mut *self.memory) };
    }
}

fn c_string(text: &str) -> Result<CString, Error> {
    CString::new(text).map_err(|_| Error::IllegalArgument)
}

impl Service {
    /// Serves at an address: `127.0.0.1:PORT`, `[::1]:PORT`, `localhost:PORT`, where port 0 is any free one, or `unix:PATH`.
    /// `program` is what a profile calls the program. A thread of its own does it, which nothing has to wait for.
    pub fn serve(&mut self, address: &str, program: &str) -> Result<Server, ServeError> {
        let (address, program) = (c_string(address)?, c_string(program)?);
        self.begin(|memory, service, signal| {
            // SAFETY: see `begin`, and the texts end with a 0.
            unsafe { sys::cq_serve(memory, service, signal, address.as_ptr(), program.as_ptr()) }
        })
    }

    /// Listens for debuggers, such as `jdb -attach`, at an address as for [`Service::serve`]. They are told the name of the program,
    /// and look for source files in `path`. One of them at a time may attach, if it belongs to this process's user or to root.
    pub fn debug_listen(&mut self, address: &str, program: &str, path: &str) -> Result<Server, ServeError> {
        self.debug_listen_with(address, program, path, DebugOptions::default())
    }

    /// Listens for debuggers likewise, with options.
    pub fn debug_listen_with(
        &mut self,
        address: &str,
        program: &str,
        path: &str,
        options: DebugOptions,
    ) -> Result<Server, ServeError> {
        let (address, program, path) = (c_string(address)?, c_string(program)?, c_string(path)?);
        let mut told = options.variables.map(Told::new);
        let mut server = self.begin(|memory, service, signal| {
            // SAFETY: see `begin`, and the texts end with a 0. The server does not serve yet, so that it takes the options. It keeps what
            // the functions use for as long as it serves.
            unsafe {
                if let Some(told) = &mut told {
                    sys::cq_server_variables(memory, &told.functions());
                }
                sys::cq_server_pops_frames(memory, options.pops_frames);
                sys::cq_server_starts_suspended(memory, options.starts_suspended);
                sys::cq_debug_listen(memory, service, signal, address.as_ptr(), program.as_ptr(), path.as_ptr())
            }
        })?;
        server._told = told;
        Ok(server)
    }

    /// Begins to serve by a call that gives a code. Its memory is empty and stays where it is, and the signal lives as long as the
    /// server.
    fn begin(
        &mut self,
        call: impl FnOnce(*mut sys::cq_server, *mut sys::cq_service, *mut sys::cq_signal) -> u32,
    ) -> Result<Server, ServeError> {
        let (mut memory, signal) = (Box::new(sys::cq_server::empty()), self.signal.clone());
        let code = call(&mut *memory, &mut *self.handle, signal.at());
        if code == sys::CQ_SYSTEM {
            return Err(ServeError::System(io::Error::last_os_error()));
        }
        checked(code)?;
        Ok(Server { memory, _signal: signal, _told: None })
    }
}
