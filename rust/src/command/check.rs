//! For `./postlapse`, before it builds the library: whether a call can work at all. Built by rustc alone, in a second. The exit status is
//! 0 where there is something to do for the command, 2 where that is said not to work, and 3 where all is said (help).
mod arguments;
mod plan;

use arguments::Asked;
use std::io::{self, Write};
use std::process::ExitCode;

fn main() -> ExitCode {
    let planned = match arguments::read(std::env::args_os().skip(1)) {
        Ok(Asked::Help(text)) => {
            return ExitCode::from(if io::stdout().write_all(text.as_bytes()).is_ok() { 3 } else { 2 });
        }
        Ok(Asked::Version) => return ExitCode::SUCCESS,
        Ok(Asked::Do(job)) => plan::plan(&job),
        Err(words) => Err(words),
    };
    let wrong = match planned {
        Ok(items) if items.iter().any(|item| item.wrong.is_none()) => return ExitCode::SUCCESS,
        Ok(items) => items.into_iter().filter_map(|item| item.wrong).collect(),
        Err(words) => vec![words],
    };
    for words in wrong {
        let _ = writeln!(io::stderr(), "postlapse: {words}");
    }
    ExitCode::from(2)
}
