//! The examples that are shown elsewhere are those that are run: a program in Rust or C that the
//! README shows stands in lib.rs or in the header, where the doc tests and the C tests run it.

const README: &str = include_str!("../../README.md");

/// The blocks of a language in the README, between its fences.
fn blocks(language: &str) -> Vec<&'static str> {
    let fence = format!("```{language}\n");
    README.split(&fence).skip(1).map(|rest| rest.split_once("```").unwrap().0).collect()
}

/// A text with what each line begins with where the program is run.
fn lines_of(text: &str, start: &str) -> String {
    text.lines().map(|line| format!("{}\n", format!("{start}{line}").trim_end())).collect()
}

#[test]
fn rust_in_the_readme_is_run() {
    for block in blocks("rust") {
        assert!(include_str!("../src/lib.rs").contains(&lines_of(block, "//! ")), "{block}");
    }
}

#[test]
fn c_in_the_readme_is_run() {
    for block in blocks("c") {
        let header = include_str!("../../include/maaliskur.h");
        assert!(header.contains(&lines_of(block, " *     ")), "{block}");
    }
}

/// With the feature `std`, `?` takes a refusal into a box of any error.
#[cfg(feature = "std")]
#[test]
fn a_refusal_is_an_error() {
    fn refused() -> Result<(), Box<dyn std::error::Error>> {
        maaliskur::Lists::new(&mut [0; 4], &mut [])?.push(0, 7)?;
        Ok(())
    }
    assert_eq!(refused().unwrap_err().to_string(), "there is no such slot in the table");
}
