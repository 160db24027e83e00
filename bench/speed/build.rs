//! Makes a copy of the original whose `insert` shifts with `copy_within`, in cargo's folder for
//! what is built.

use std::path::Path;
use std::{env, fs};

/// The original, from this package's folder.
const ORIGINAL: &str = "../../docs/src/src/list.rs";

/// The loop of `insert`, and what takes its place.
const SHIFT: [&str; 2] = [
    "            for i in (1..tail.len()).rev() {
                tail[i] = tail[i - 1];
            }
",
    "            tail.copy_within(..tail.len() - 1, 1);
",
];

/// The head of the file, which is no head where it is included, and what takes its place.
const HEAD: [&str; 2] = ["//! Small lists", "// Small lists"];

/// The text with the one place that reads as the first word of the pair reading as the second.
fn replaced(text: &str, [old, new]: [&str; 2]) -> String {
    assert_eq!(
        text.matches(old).count(),
        1,
        "list.rs has not exactly one place that reads:\n{old}"
    );
    text.replace(old, new)
}

fn main() {
    println!("cargo:rerun-if-changed={ORIGINAL}");
    let text = fs::read_to_string(ORIGINAL).expect("the original can be read");
    let text = replaced(&replaced(&text, HEAD), SHIFT);
    let out = env::var_os("OUT_DIR").expect("cargo names a folder");
    fs::write(Path::new(&out).join("list.rs"), text).expect("the copy can be written");
}
