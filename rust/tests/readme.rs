//! README's example, as it stands there.
#![forbid(unsafe_code)]

use std::cell::RefCell;
use std::error::Error;

thread_local! {
    static PRINTED: RefCell<Vec<String>> = const { RefCell::new(Vec::new()) };
}

/// What the example prints is kept.
macro_rules! println {
    ($($shown:tt)*) => {{
        let line = format!($($shown)*);
        PRINTED.with(|printed| printed.borrow_mut().push(line));
    }};
}

#[rustfmt::skip]
fn example() -> Result<(), Box<dyn Error>> {
    let p: hwemiduk::Peptidoform = "M[+16#a]c[#a]".parse()?;
    println!("{p}: {} millionths", p.total()?);                    // M[+16#a]C[#a]: 16000000 millionths
    for placement in p.placements() {
        println!("{:?} {:?}", &*placement, p.ledger(&placement)?);  // [1] [0, 16000000, 0, 0], then [2] [0, 0, 16000000, 0]
    }
    Ok(())
}

#[test]
fn example_runs() {
    example().unwrap();
    let expected = ["M[+16#a]C[#a]: 16000000 millionths", "[1] [0, 16000000, 0, 0]", "[2] [0, 0, 16000000, 0]"];
    PRINTED.with(|printed| assert_eq!(*printed.borrow(), expected));
}

#[test]
fn example_is_readme_s() {
    let trimmed = |text: &str| text.lines().map(str::trim).collect::<Vec<_>>().join("\n");
    let readme = include_str!("../../README.md");
    let (_, rest) = readme.split_once("```rust\n").unwrap();
    let (block, _) = rest.split_once("```").unwrap();
    assert!(trimmed(include_str!("readme.rs")).contains(&trimmed(block)), "{block}");
}
