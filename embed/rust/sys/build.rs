//! Finds the library of the session: in the folder that C8PLAY_LIB names, else in `lib` of the folder above, where a packed crate has it.
//!
//! Without a library the crate can be checked, documented and compiled, also its tests, but not run: `src/absent.rs` stands in for it.

use std::env;
use std::path::{Path, PathBuf};
use std::process::exit;

fn main() {
    println!("cargo:rerun-if-changed=build.rs");
    println!("cargo:rerun-if-changed=../lib");
    println!("cargo:rerun-if-env-changed=C8PLAY_LIB");
    println!("cargo:rustc-check-cfg=cfg(c8_absent)");
    let beside = Path::new(&env::var_os("CARGO_MANIFEST_DIR").expect("cargo sets it")).join("../lib");
    let folder = match env::var_os("C8PLAY_LIB") {
        Some(folder) => match PathBuf::from(folder).canonicalize() {
            Ok(folder) if has_library(&folder) => folder,
            _ => fail("there is no libc8.a in the folder that C8PLAY_LIB names"),
        },
        None if has_library(&beside) => beside,
        None => return println!("cargo:rustc-cfg=c8_absent"),
    };
    println!("cargo:rustc-link-search=native={}", folder.display());
    println!("cargo:rustc-link-lib=static=c8");
    println!("cargo:rerun-if-changed={}", folder.join("libc8.a").display());
}

fn has_library(folder: &Path) -> bool {
    folder.join("libc8.a").is_file()
}

fn fail(message: &str) -> ! {
    eprintln!("c8play-sys: {message}");
    exit(1)
}
