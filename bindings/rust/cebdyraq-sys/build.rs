//! Finds libcebdyraq: the shared library that pkg-config knows, or libcebdyraq.a in the folder that CEBDYRAQ_LIB_DIR names.

use std::env;
use std::process::{exit, Command};

/// The versions that have all that this crate declares.
const WANTED: [&str; 2] = ["cebdyraq >= 2.5", "cebdyraq < 3"];
const READ: [&str; 5] =
    ["CEBDYRAQ_LIB_DIR", "PKG_CONFIG", "PKG_CONFIG_PATH", "PKG_CONFIG_LIBDIR", "PKG_CONFIG_SYSROOT_DIR"];

fn give_up(why: &str) -> ! {
    eprintln!("cebdyraq-sys: {why}. CEBDYRAQ_LIB_DIR may name the folder of libcebdyraq.a.");
    exit(1)
}

/// What pkg-config says of the library.
fn flags() -> String {
    let program = env::var("PKG_CONFIG").unwrap_or_else(|_| "pkg-config".to_owned());
    match Command::new(&program).arg("--libs").args(WANTED).output() {
        Ok(done) if done.status.success() => String::from_utf8_lossy(&done.stdout).into_owned(),
        Ok(done) => give_up(&format!("{program} does not find it: {}", String::from_utf8_lossy(&done.stderr).trim())),
        Err(error) => give_up(&format!("{program} does not run: {error}")),
    }
}

fn main() {
    for name in READ {
        println!("cargo:rerun-if-env-changed={name}");
    }
    if let Some(folder) = env::var_os("CEBDYRAQ_LIB_DIR") {
        println!("cargo:rustc-link-search=native={}", folder.to_string_lossy());
        println!("cargo:rustc-link-lib=static=cebdyraq");
        return;
    }
    println!("cargo:rustc-link-lib=dylib=cebdyraq");
    for folder in flags().split_whitespace().filter_map(|flag| flag.strip_prefix("-L")) {
        println!("cargo:rustc-link-search=native={folder}");
    }
}
