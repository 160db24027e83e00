//! Tells the linker where libmaaliskur.a lies: in the folder that MAALISKUR_LIB_DIR names, or else
//! where `rt lib` writes it in the folder of the crate maaliskur. Stops with what to do where it is not there.

use std::env;
use std::path::{Path, PathBuf};
use std::process;

/// The value of a variable that cargo sets for build scripts.
fn told(variable: &str) -> String {
    env::var(variable).unwrap_or_default()
}

/// The folder to search: the caller's, or this repository's `crates/maaliskur/out`.
fn folder() -> PathBuf {
    match env::var_os("MAALISKUR_LIB_DIR") {
        Some(folder) => PathBuf::from(folder),
        None => {
            let here = told("CARGO_MANIFEST_DIR");
            Path::new(&here).parent().unwrap_or_else(|| Path::new(".")).join("crates/maaliskur/out")
        }
    }
}

/// Stops the build and says why.
fn stop(why: &str) -> ! {
    eprintln!("{}", why);
    process::exit(1)
}

fn main() {
    let folder = folder();
    let archive = folder.join("libmaaliskur.a");
    println!("cargo:rerun-if-env-changed=MAALISKUR_LIB_DIR");
    println!("cargo:rerun-if-changed={}", archive.display());
    if told("CARGO_CFG_TARGET_ARCH") != "x86_64" {
        stop(&format!(
            "maaliskur: libmaaliskur.a is code for x86-64, and this is a build for {}.\n\
             Build with --target x86_64-unknown-linux-gnu.",
            told("TARGET")
        ));
    }
    if !folder.is_absolute() {
        stop(&format!(
            "maaliskur: MAALISKUR_LIB_DIR is {}, and has to be an absolute path.",
            folder.display()
        ));
    }
    if !archive.is_file() {
        stop(&format!(
            "maaliskur: there is no libmaaliskur.a in {}.\n\
             Run `rt lib` in crates/maaliskur of the repository of maaliskur, which proves it and \
             writes it to out/ there,\n\
             or set MAALISKUR_LIB_DIR to the folder that it is in.",
            folder.display()
        ));
    }
    println!("cargo:rustc-link-search=native={}", folder.display());
    println!("cargo:rustc-link-lib=static=maaliskur");
}
