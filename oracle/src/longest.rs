//! The longest sound that the encoder takes and the most samples that the writer takes, by both sides. They take
//! gigabytes and a minute, so that they are asked only by `oracle/diff longest`.

use crate::convert;
use crate::lists::{RATE, Random};
use crate::memory::{Pages, Placement};
use crate::postlapse as ours;
use crate::reference::sqv4::{self, Variant};
use crate::tally::Tally;
use std::fs::File;
use std::io::{BufReader, Read};
use std::time::Instant;

/// The most samples a channel of a stream, and the most of a WAV file.
const ENCODED: usize = (1 << 32) - 1;
const WRITTEN: usize = (1 << 31) - 19;

pub fn compare(tally: &mut Tally, random: &mut Random) {
    tally.start("longest");
    let samples = clicks(random, ENCODED);
    let expected = timed("the reference encodes", || sqv4::encode_interleaved(&samples, 1, RATE, Variant::H, 255));
    let expected = expected.expect("so many samples are encoded");
    let mut stream = vec![0; expected.len()];
    let answer = timed("ours encodes", || ours::encode(&samples, 1, RATE, ours::H, 255, &mut stream));
    let same = answer.refusal == 0 && answer.first == expected.len() && stream == expected;
    tally.count("encode", 0, same, || ("encode".to_string(), format!("{ENCODED} samples")));
    drop((stream, expected));

    let path = std::env::temp_dir().join(format!("oracle-{}.longest.wav", std::process::id()));
    timed("the reference writes", || convert::write(&path, 1, RATE, &samples[..WRITTEN]));
    let mut file = vec![0; 44 + 2 * WRITTEN];
    let answer = timed("ours writes", || ours::write_wave(1, RATE, &samples[..WRITTEN], &mut file));
    let same = answer.refusal == 0 && answer.first == file.len() && holds(&path, &file);
    std::fs::remove_file(&path).expect("the file can be removed");
    tally.count("write", 0, same, || ("write".to_string(), format!("{WRITTEN} samples")));
}

/// Silence with a sample here and there, the last one too.
fn clicks(random: &mut Random, length: usize) -> Pages<i16> {
    let mut samples =
        Pages::writable_zeros(Placement::GuardBehind, length).expect("there are addresses for the samples");
    for _ in 0..10_000 {
        samples[random.below(length)] = random.sample();
    }
    samples[length - 1] = 12345;
    samples
}

fn timed<T>(says: &str, run: impl FnOnce() -> T) -> T {
    let start = Instant::now();
    let result = run();
    println!("{says}: {:.1} s", start.elapsed().as_secs_f64());
    result
}

/// Whether a file has these bytes and no more.
fn holds(path: &std::path::Path, bytes: &[u8]) -> bool {
    let mut file = BufReader::new(File::open(path).expect("the file can be read"));
    let mut part = vec![0; 1 << 20];
    let same = bytes.chunks(1 << 20).all(|bytes| {
        let part = &mut part[..bytes.len()];
        file.read_exact(part).is_ok() && part == bytes
    });
    same && matches!(file.read(&mut part), Ok(0))
}
