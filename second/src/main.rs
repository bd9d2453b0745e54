//! The commands of the second program. All but the last read a text from standard
//! input; a refused text gives the single line `refused R at P`, which `old-table` writes
//! to standard error and ends with a status other than 0, since its output is bytes.
//!
//!   second list          the listing of the text's table
//!   second old-way       the label count at which the old way stops
//!   second old-table     the bytes of the table at which the old way stops
//!   second hex           the text's table in hex
//!   second stored SEED   the stored corpus, as the module `stored` says

use second::compiling::{ample_room, compile, listing};
use second::{old_way, stored, Refusal};
use std::io::{self, Read, Write};
use std::process::ExitCode;

const USAGE: &str = "usage: second list | old-way | old-table | hex | stored SEED";

fn main() -> ExitCode {
    let words: Vec<String> = std::env::args().skip(1).collect();
    let words: Vec<&str> = words.iter().map(String::as_str).collect();
    let done = match words[..] {
        ["list"] => with_input(listing),
        ["old-way"] => with_input(|text| line(old_way_count(text))),
        ["old-table"] => write_old_table(),
        ["hex"] => with_input(|text| line(compile(text, ample_room()).map(hex))),
        ["stored", seed] => match seed.parse() {
            Ok(seed) => io::stdout().write_all(&stored::bytes(seed)),
            Err(_) => return usage(),
        },
        _ => return usage(),
    };
    match done {
        Ok(()) => ExitCode::SUCCESS,
        Err(trouble) => {
            eprintln!("{trouble}");
            ExitCode::FAILURE
        }
    }
}

fn usage() -> ExitCode {
    eprintln!("{USAGE}");
    ExitCode::from(2)
}

fn input() -> io::Result<Vec<u8>> {
    let mut text = Vec::new();
    io::stdin().read_to_end(&mut text)?;
    Ok(text)
}

fn with_input(answer: impl Fn(&[u8]) -> String) -> io::Result<()> {
    io::stdout().write_all(answer(&input()?).as_bytes())
}

fn line(answer: Result<String, Refusal>) -> String {
    format!("{}\n", answer.unwrap_or_else(|refusal| refusal.to_string()))
}

fn old_way_count(text: &[u8]) -> Result<String, Refusal> {
    old_way::stop(text).map(|stop| stop.labels.count.to_string())
}

fn write_old_table() -> io::Result<()> {
    match old_way::table(&input()?) {
        Ok(table) => io::stdout().write_all(&table),
        Err(refusal) => Err(io::Error::new(
            io::ErrorKind::InvalidInput,
            refusal.to_string(),
        )),
    }
}

fn hex(bytes: Vec<u8>) -> String {
    bytes.iter().map(|byte| format!("{byte:02x}")).collect()
}
