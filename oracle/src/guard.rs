//! Calls in guarded memory. One that touches what it may not is stopped by the system, so they are made in a child
//! process, which tells on a pipe what it asks and what came of it. One that dies counts as a difference, and another
//! child goes on after it.

use crate::lists::Random;
use crate::memory::Placement;
use crate::tally::{Tally, Teller};
use std::ffi::c_int;
use std::io::{BufRead, BufReader, PipeReader, pipe};

unsafe extern "C" {
    fn fork() -> c_int;
    fn waitpid(child: c_int, status: *mut c_int, options: c_int) -> c_int;
    fn _exit(status: c_int) -> !;
    fn setrlimit(what: c_int, limits: *const [u64; 2]) -> c_int;
}

/// The system's number for the size of a core file.
const CORE: c_int = 4;

/// Asks the calls for one input, by its number or made of random numbers.
pub type Ask<'a> = &'a dyn Fn(usize, &mut Tally, &mut Random);

/// How far the children have come.
struct Progress {
    /// The input that is asked, and the random numbers from which it is made.
    input: usize,
    random: u64,
    /// How many of its calls are counted, and those among them that died.
    counted: usize,
    dead: Vec<usize>,
}

/// What the children have to ask: so many inputs, each with memory at these placements in turn.
struct Work<'a> {
    inputs: usize,
    placements: &'a [Placement],
    ask: Ask<'a>,
}

/// Asks so many inputs, each with guard pages behind and then before all that is lent.
pub fn guarded(tally: &mut Tally, random: &mut Random, inputs: usize, ask: Ask) {
    let placements = &[Placement::GuardBehind, Placement::GuardBefore];
    all(tally, random, &Work { inputs, placements, ask });
}

/// Asks so many inputs in a child process, with memory of the heap.
pub fn apart(tally: &mut Tally, random: &mut Random, inputs: usize, ask: Ask) {
    all(tally, random, &Work { inputs, placements: &[Placement::Heap], ask });
}

fn all(tally: &mut Tally, random: &mut Random, work: &Work) {
    let mut progress = Progress { input: 0, random: random.0, counted: 0, dead: vec![] };
    while progress.input < work.inputs {
        follow(tally, &mut progress, work);
    }
    random.0 = progress.random;
}

/// Starts a child and counts what it tells, until it has asked all or dies.
fn follow(tally: &mut Tally, progress: &mut Progress, work: &Work) {
    let (reader, writer) = pipe().expect("there is a pipe");
    let child = unsafe { fork() };
    assert!(child >= 0, "a process can be started");
    if child == 0 {
        drop(reader);
        let teller = Teller::new(writer, progress.dead.clone());
        run(Tally::telling(teller), progress, work);
    }
    drop(writer);
    let asked = listen(tally, progress, reader);
    let mut status = 0;
    unsafe { waitpid(child, &mut status, 0) };
    match (asked, status) {
        (None, 0) => {}
        (Some(asked), status) if status != 0 => {
            let Asked { call, refusal, place, line } = asked;
            let seen = format!("{call}, {place}: DIED, {}", ending(status));
            tally.count(&call, refusal, false, || (seen, line));
            progress.dead.push(progress.counted);
            progress.counted += 1;
        }
        _ => panic!("a child ended outside of a call: {}", ending(status)),
    }
}

/// In the child: asks the inputs that are left.
fn run(mut tally: Tally, progress: &Progress, work: &Work) -> ! {
    unsafe { setrlimit(CORE, &[0, 0]) };
    let mut random = Random(progress.random);
    for input in progress.input..work.inputs {
        let start = random.0;
        for &placement in work.placements {
            random.0 = start;
            tally.place(placement);
            (work.ask)(input, &mut tally, &mut random);
        }
        tally.tell_input(random.0);
    }
    unsafe { _exit(0) }
}

/// A call that is begun.
struct Asked {
    call: String,
    refusal: usize,
    place: String,
    line: String,
}

/// Reads what a child tells, up to its end: the call that it was in, if any. What an earlier child told is not
/// counted again.
fn listen(tally: &mut Tally, progress: &mut Progress, reader: PipeReader) -> Option<Asked> {
    let (mut asked, mut calls) = (None::<Asked>, 0);
    for line in BufReader::new(reader).lines() {
        let line = line.expect("a pipe can be read");
        match *line.split('\t').collect::<Vec<_>>() {
            ["asks", call, refusal, place, line] => {
                let refusal = refusal.parse().expect("a refusal is a number");
                let [call, place, line] = [call, place, line].map(str::to_string);
                asked = Some(Asked { call, refusal, place, line });
            }
            ["died before"] => calls += 1,
            ["input", random] => {
                let random = random.parse().expect("a number");
                *progress = Progress { input: progress.input + 1, random, counted: 0, dead: vec![] };
                calls = 0;
            }
            [result, seen] => {
                let Asked { call, refusal, line, .. } = asked.take().expect("a call comes before its result");
                if calls == progress.counted {
                    progress.counted += 1;
                    tally.count(&call, refusal, result == "same", || (seen.to_string(), line));
                }
                calls += 1;
            }
            _ => panic!("a child told {line:?}"),
        }
    }
    asked
}

fn ending(status: c_int) -> String {
    match status & 127 {
        0 => format!("exit status {}", status >> 8),
        11 => "signal 11: it touched memory that it may not touch".to_string(),
        signal => format!("signal {signal}"),
    }
}
