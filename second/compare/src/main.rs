//! Compares the proved library with the second program, and ends with status 1 at the first
//! difference, which it prints with the shortest input found.
//!
//!   compare texts SEED COUNT    compilers, on so many random texts and all short ones
//!   compare tables SEED COUNT   runs, on so many tables
//!   compare material            the real material, over all inputs

use compare::library::Library;
use compare::{material, tables, texts};
use std::fmt::Debug;
use std::process::ExitCode;

fn main() -> ExitCode {
    let words: Vec<String> = std::env::args().skip(1).collect();
    let words: Vec<&str> = words.iter().map(String::as_str).collect();
    let (part, seed, count) = match words[..] {
        ["material"] => ("material", Ok(0), Ok(0)),
        [part, seed, count] => (part, seed.parse(), count.parse()),
        _ => return usage(),
    };
    match (part, seed, count) {
        ("material", ..) => told(material::compare(&Library)),
        ("texts", Ok(seed), Ok(count)) => told(texts::compare(&Library, seed, count)),
        ("tables", Ok(seed), Ok(count)) => told(tables::compare(&Library, seed, count)),
        _ => usage(),
    }
}

fn usage() -> ExitCode {
    eprintln!("usage: compare texts SEED COUNT | tables SEED COUNT | material");
    ExitCode::from(2)
}

fn told(outcome: Result<impl Debug, String>) -> ExitCode {
    match outcome {
        Ok(count) => {
            println!("no difference: {count:?}");
            ExitCode::SUCCESS
        }
        Err(difference) => {
            println!("DIFFERENCE: {difference}");
            ExitCode::FAILURE
        }
    }
}
