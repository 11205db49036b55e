//! Prints what the reference Rust answers, so that the port's definitions and functions can be compared with it.
//! oracle/run builds and starts this program; oracle/README.md says how it is used.

mod answer;
mod antt;
#[allow(dead_code)]
mod convert;
mod input;
mod lists;
mod paper;
mod print;
mod record;
mod search;

/// The reference, unchanged: its two modules, which oracle/run names by their full paths. Not all of it is called.
#[allow(dead_code)]
mod reference {
    include!(env!("ORACLE_SQV4"));
    include!(env!("ORACLE_WAV"));
}

use std::io::{self, Read, Write};
use std::process::ExitCode;

const USAGE: &str = "usage: oracle/run answers < LIST
       oracle/run antt < LIST
       oracle/run record [wrong] < LIST
       oracle/run print converter|inspector < INPUT
       oracle/run inputs matrix|edges|decode|headers|steps|fragments|lengths|waves|writes|programs|refusals|short|search";

fn main() -> ExitCode {
    match run().and_then(|output| io::stdout().write_all(&output).map_err(|error| error.to_string())) {
        Ok(()) => ExitCode::SUCCESS,
        Err(message) => {
            eprintln!("{message}");
            ExitCode::from(2)
        }
    }
}

/// The whole output, or what is wrong. Nothing is printed of a list that has a bad line.
fn run() -> Result<Vec<u8>, String> {
    let arguments: Vec<String> = std::env::args().skip(1).collect();
    let words: Vec<&str> = arguments.iter().map(String::as_str).collect();
    match words[..] {
        ["answers"] => Ok(read_list()?.iter().flat_map(|(_, input)| answer::line(input).into_bytes()).collect()),
        ["antt"] => antt::file(&read_list()?).map(String::into_bytes),
        ["record"] => record::file(&read_list()?, record::right),
        ["record", "wrong"] => record::file(&read_list()?, record::wrong),
        ["print", "converter"] => Ok(print::converter(&read_bytes()?)),
        ["print", "inspector"] => Ok(print::inspector(&read_bytes()?)),
        ["inputs", "search"] => Ok(search::list().into_bytes()),
        ["inputs", name] => lists::list(name).map(String::into_bytes).ok_or(USAGE.to_string()),
        _ => Err(USAGE.to_string()),
    }
}

fn read_list() -> Result<Vec<(usize, input::Input)>, String> {
    let text = io::read_to_string(io::stdin()).map_err(|error| error.to_string())?;
    input::read(&text)
}

fn read_bytes() -> Result<Vec<u8>, String> {
    let mut bytes = Vec::new();
    io::stdin().read_to_end(&mut bytes).map_err(|error| error.to_string())?;
    Ok(bytes)
}
