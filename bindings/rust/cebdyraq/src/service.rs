use crate::environment::{capabilities, Environment};
use crate::error::{checked, surely, Error};
use crate::thread::Fresh;
use cebdyraq_sys as sys;
use std::cell::{Cell, UnsafeCell};
use std::marker::PhantomData;
use std::sync::Arc;

/// What wakes those who sleep. All handles of a service have one.
#[derive(Debug, Default)]
pub(crate) struct Signal(UnsafeCell<sys::cq_signal>);

// SAFETY: the functions of cebdyraq_wait.h use it by atomic steps alone.
unsafe impl Send for Signal {}
unsafe impl Sync for Signal {}

impl Signal {
    pub(crate) fn at(&self) -> *mut sys::cq_signal {
        self.0.get()
    }
}

/// A handle may go to another thread. But it is used by one call at a time, and so it is not shared.
pub(crate) type NotShared = PhantomData<Cell<()>>;

/// A service: threads of a runtime and environments of agents are attached to it.
///
/// The service lives as long as one of its handles, threads or environments.
#[derive(Debug)]
pub struct Service {
    // Boxed, since a handle stays where it is.
    pub(crate) handle: Box<sys::cq_service>,
    pub(crate) signal: Arc<Signal>,
    _not_shared: NotShared,
}

// SAFETY: what a handle leads to may go to another thread (cebdyraq.h, what a caller owes).
unsafe impl Send for Service {}

impl Service {
    fn empty(signal: Arc<Signal>) -> Service {
        Service { handle: Box::new(sys::cq_service::empty()), signal, _not_shared: PhantomData }
    }

    /// Makes a service. Its threads have at most `depth` frames, 1 to 65,536. At most `envs` environments are there at
    /// once, 1 to 32. Each may have `window` calls out at a thread that were posted and not collected, 1 to 1,024.
    ///
    /// # Panics
    ///
    /// If the version of libcebdyraq is not one that this crate is for.
    pub fn make(depth: u32, envs: u32, window: u32) -> Result<Service, Error> {
        Service::make_with(depth, envs, window, capabilities::SUSPEND | capabilities::POP_FRAME)
    }

    /// The same, for a runtime that says which capabilities its environments can have: a sum of [`capabilities`], or
    /// 0. One whose threads cannot go on after a pop leaves the second out.
    /// [`Error::NotAvailable`] if there is no such capability.
    ///
    /// # Panics
    ///
    /// If the version of libcebdyraq is not one that this crate is for.
    pub fn make_with(depth: u32, envs: u32, window: u32, capabilities: u32) -> Result<Service, Error> {
        assert!(sys::version_fits(), "this version of libcebdyraq does not fit cebdyraq {}", env!("CARGO_PKG_VERSION"));
        let mut made = Service::empty(Arc::default());
        // SAFETY: the handle is empty, and this call alone uses it.
        match checked(unsafe { sys::cq_make(depth, envs, window, capabilities, &mut *made.handle) }) {
            Ok(()) => Ok(made),
            Err(error) => Err(error),
        }
    }

    /// One more handle of the same service.
    pub fn share(&mut self) -> Result<Service, Error> {
        let mut other = Service::empty(self.signal.clone());
        // SAFETY: the two are different handles, and this call alone uses them.
        checked(unsafe { sys::cq_share(&mut *self.handle, &mut *other.handle) })?;
        Ok(other)
    }

    /// Attaches a thread, which has not started. Its number is how many came before it.
    pub fn attach_thread(&mut self, name: &str, priority: i32) -> Result<Fresh, Error> {
        let mut handle = Box::new(sys::cq_thread::empty());
        let signal = self.signal.clone();
        // SAFETY: this call alone uses the handles, and the name is there as long as it lasts.
        checked(unsafe {
            let service = &mut *self.handle;
            sys::cq_wait_attach_thread(service, signal.at(), name.as_ptr(), name.len(), priority, &mut *handle)
        })?;
        Ok(Fresh::new(handle, signal))
    }

    /// Attaches an environment. It has no capability, and has met no thread yet.
    ///
    /// [`Error::Full`] if there are as many as the service allows.
    pub fn attach_environment(&mut self) -> Result<Environment, Error> {
        let mut handle = Box::new(sys::cq_env::empty());
        let signal = self.signal.clone();
        // SAFETY: this call alone uses the handles.
        checked(unsafe { sys::cq_wait_attach_environment(&mut *self.handle, signal.at(), &mut *handle) })?;
        Ok(Environment::new(handle, signal))
    }
}

impl Drop for Service {
    fn drop(&mut self) {
        // SAFETY: this call alone uses the handle. An empty one, which was never made, is refused.
        let code = unsafe { sys::cq_free(&mut *self.handle) };
        if code != sys::CQ_MISUSED {
            surely(code);
        }
    }
}
