//! The functions of `cebdyraq.h`, `cebdyraq_wait.h`, `cebdyraq_serve.h` and `cebdyraq_watch.h`. Their rules are there.
//!
//! The build finds the shared library by pkg-config, or links `libcebdyraq.a` of the folder that `CEBDYRAQ_LIB_DIR` names.
#![no_std]
#![allow(non_camel_case_types)]

#[rustfmt::skip]
mod api;

pub use api::*;

/// Whether the library that the program runs with has all of them, as `cq_version_fits` of `cebdyraq.h` says.
pub fn version_fits() -> bool {
    // SAFETY: it reads nothing and writes nothing.
    let version = unsafe { cq_version() } / 1000;
    version / 1000 == CQ_VERSION_MAJOR && version % 1000 + 1 > CQ_VERSION_MINOR
}
