//! Calls of all kinds in several threads at once, on inputs that they share. Each must give what it gave alone.

use crate::ask::{Numbers, answered, fragment_answered, header_answered, numbers, wave_answered};
use crate::input::{hex, words};
use crate::lists::{RATE, Random};
use crate::postlapse::{self as ours, State};
use crate::tally::Tally;
use crate::{damaged, fragment_bytes, fragment_count, length, random_stream, samples, wave_bytes};
use std::sync::Barrier;
use std::thread;

const THREADS: usize = 4;

/// How often each thread makes each call.
const ROUNDS: usize = 3;

const CALLS: [&str; 13] = [
    "version",
    "fragment size",
    "frame count",
    "stream length",
    "encode",
    "write",
    "inspect",
    "decode",
    "fragment",
    "fragment lent",
    "read",
    "read strict",
    "load samples",
];

/// An answer, and all places of the output; of a lent state too.
type Given = (Numbers, Vec<i64>);

/// A sound, a stream and a WAV file that may be damaged, and a fragment; outputs may be too short.
struct Shared {
    channels: u8,
    variant: u8,
    gain: u8,
    room: usize,
    pcm: Vec<i16>,
    stream: Vec<u8>,
    version: u8,
    state: State,
    fragment: Vec<u8>,
    count: usize,
    file: Vec<u8>,
}

impl Shared {
    fn new(random: &mut Random) -> Self {
        let (channels, variant, version) = (1 + random.below(2), random.below(3) as u8, 1 + random.below(3) as u8);
        let length = length(random, 63);
        let whole = random_stream(random);
        Shared {
            channels: channels as u8,
            variant,
            gain: random.byte(),
            room: random.below(300),
            pcm: samples(random, channels, length),
            stream: if random.below(4) == 0 { damaged(random, whole) } else { whole },
            version,
            state: State { predictor: random.sample() as i32, index: random.below(90) },
            fragment: fragment_bytes(random, version, variant),
            count: fragment_count(random, version),
            file: wave_bytes(random),
        }
    }

    /// Makes a call, with an output of its own.
    fn ask(&self, call: &str) -> Given {
        let Shared { channels, variant, gain, room, version, mut state, count, .. } = *self;
        let Shared { pcm, stream, fragment, file, .. } = self;
        match call {
            "version" => (numbers(&[0, ours::version() as usize]), vec![]),
            "fragment size" => (answered(ours::fragment_size(version, variant)), vec![]),
            "frame count" => (answered(ours::frame_count(version, RATE)), vec![]),
            "stream length" => (answered(ours::stream_length(version, variant, channels, RATE)), vec![]),
            "encode" => filled(room, |out| answered(ours::encode(pcm, channels, RATE, variant, gain, out))),
            "write" => filled(room, |out| answered(ours::write_wave(channels, RATE, pcm, out))),
            "inspect" => (header_answered(ours::inspect(stream)), vec![]),
            "decode" => filled(room, |out| header_answered(ours::decode(stream, out))),
            "fragment" => {
                filled(count, |out| fragment_answered(ours::decode_fragment(version, variant, state, fragment, out)))
            }
            "fragment lent" => {
                let mut ask =
                    |out: &mut [i16]| ours::decode_fragment_lent(version, variant, &mut state, fragment, out);
                let (answer, mut places) = filled(count, |out| answered(ask(out)));
                places.extend([state.predictor as i64, state.index as i64]);
                (answer, places)
            }
            "read" => (wave_answered(ours::read_wave(file)), vec![]),
            "read strict" => (wave_answered(ours::read_strict_wave(file)), vec![]),
            _ => filled(room, |out| answered(ours::load_samples(file, out))),
        }
    }

    fn line(&self, call: &str) -> String {
        let Shared { channels, variant, gain, room, pcm, stream, version, state, fragment, count, file } = self;
        match call {
            "version" | "fragment size" | "frame count" | "stream length" => {
                format!("{call} of {version} {variant} {channels} {RATE}")
            }
            "encode" => format!("encode {variant} {gain} {channels} {RATE}{}, room {room}", words(pcm)),
            "write" => format!("write {channels} {RATE}{}, room {room}", words(pcm)),
            "inspect" => format!("inspect {}", hex(stream)),
            "decode" => format!("decode {}, room {room}", hex(stream)),
            "fragment" | "fragment lent" => {
                let State { predictor, index } = state;
                format!("fragment {version} {variant} {predictor} {index} {count} {}", hex(fragment))
            }
            _ => format!("wav {}, room {room}", hex(file)),
        }
    }
}

fn filled<T: Copy + Default + Into<i64>>(room: usize, call: impl FnOnce(&mut [T]) -> Numbers) -> Given {
    let mut out = vec![T::default(); room];
    (call(&mut out), out.into_iter().map(T::into).collect())
}

/// All calls on so many shared inputs: alone, then in threads that begin at different ones.
pub fn at_once(tally: &mut Tally, random: &mut Random, inputs: usize) {
    let shared: Vec<Shared> = (0..inputs).map(|_| Shared::new(random)).collect();
    let questions: Vec<(&Shared, &str)> = shared.iter().flat_map(|one| CALLS.map(|call| (one, call))).collect();
    let alone: Vec<Given> = questions.iter().map(|(shared, call)| shared.ask(call)).collect();
    let start = Barrier::new(THREADS);
    let ask_all = |thread: usize| {
        start.wait();
        let first = thread * questions.len() / THREADS;
        let order = (0..ROUNDS * questions.len()).map(|turn| (first + turn) % questions.len());
        order.map(|at| (at, questions[at].0.ask(questions[at].1) == alone[at])).collect::<Vec<_>>()
    };
    let seen: Vec<_> = thread::scope(|scope| {
        let threads: Vec<_> = (0..THREADS).map(|thread| scope.spawn(move || ask_all(thread))).collect();
        threads.into_iter().flat_map(|thread| thread.join().expect("a thread ends")).collect()
    });
    for (at, same) in seen {
        let (shared, call) = questions[at];
        tally.count(call, alone[at].0[0] as usize, same, || (format!("{call}: not as alone"), shared.line(call)));
    }
}
