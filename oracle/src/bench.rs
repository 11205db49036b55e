//! How fast the proved code is, called as C calls it, beside the reference: the same inputs in the same run. oracle/bench
//! builds and starts this program; oracle/README.md says what it measures.

#[allow(dead_code)]
mod answer;
#[allow(dead_code)]
mod convert;
#[allow(dead_code)]
mod input;
#[allow(dead_code)]
mod lists;
#[allow(dead_code)]
mod paper;
#[allow(dead_code)]
mod print;
#[allow(dead_code)]
#[path = "../../rust/src/raw.rs"]
mod postlapse;

/// The reference, unchanged, as in main.rs.
#[allow(dead_code)]
mod reference {
    include!(env!("ORACLE_SQV4"));
    include!(env!("ORACLE_WAV"));
}

use input::{VARIANTS, name, sample_bytes};
use lists::{MONO, RATE, Random, STEREO};
use paper::{fragment_size, frame_samples};
use postlapse as ours;
use reference::sqv4::{self, Variant};
use reference::wav;
use std::hint::black_box;
use std::process::ExitCode;
use std::time::{Duration, Instant};

const SOUNDS: [(&str, fn(&mut Random, usize) -> Vec<i16>); 5] =
    [("speech", speech), ("voice", voice), ("noise", noise), ("silence", silence), ("tones", tones)];

fn main() -> ExitCode {
    let words: Vec<String> = std::env::args().skip(1).collect();
    let quick = match words.iter().map(String::as_str).collect::<Vec<_>>()[..] {
        [] => false,
        ["quick"] => true,
        _ => {
            eprintln!("usage: oracle/bench [quick]");
            return ExitCode::from(2);
        }
    };
    let mut bench = Bench { quick, rows: Vec::new() };
    bench.encode();
    bench.decode();
    bench.waves();
    bench.fragments();
    bench.summary();
    ExitCode::SUCCESS
}

// ---- inputs

/// Voiced parts, hisses and pauses of a tenth to four tenths of a second.
fn speech(random: &mut Random, length: usize) -> Vec<i16> {
    let mut samples = Vec::new();
    while samples.len() < length {
        let part = 800 + random.below(2400);
        match random.below(6) {
            0 => samples.extend((0..part).map(|_| random.around(3) as i16)),
            1 => samples.extend((0..part).map(|_| random.around(1500) as i16)),
            _ => samples.extend(lists::tone(random, part)),
        }
    }
    samples.truncate(length);
    samples
}

/// Sung vowels: pulses of about 120 a second through the three lowest formants, another vowel each fifth of a second, with a
/// little breath.
fn voice(random: &mut Random, length: usize) -> Vec<i16> {
    const VOWELS: [[f64; 3]; 5] =
        [[730.0, 1090.0, 2440.0], [270.0, 2290.0, 3010.0], [300.0, 870.0, 2240.0], [530.0, 1840.0, 2480.0], [570.0, 840.0, 2410.0]];
    let rate = RATE as f64;
    let mut past = [[0.0; 2]; 3];
    let mut phase = 0.0;
    (0..length)
        .map(|at| {
            let seconds = at as f64 / rate;
            phase += (120.0 + 6.0 * (5.0 * seconds * std::f64::consts::TAU).sin()) / rate;
            let pulse = if phase >= 1.0 { 1.0 } else { 0.0 };
            phase -= pulse;
            let source = pulse + random.around(100) as f64 / 20000.0;
            let vowel = VOWELS[at / (RATE as usize / 5) % 5];
            let sound: f64 = (0..3)
                .map(|k| {
                    let radius = (-std::f64::consts::PI * 90.0 / rate).exp();
                    let turn = 2.0 * radius * (std::f64::consts::TAU * vowel[k] / rate).cos();
                    let now = turn * past[k][0] - radius * radius * past[k][1] + source;
                    past[k] = [now, past[k][0]];
                    now / (k + 1) as f64
                })
                .sum();
            (6000.0 * sound).round().clamp(-32768.0, 32767.0) as i16
        })
        .collect()
}

fn noise(random: &mut Random, length: usize) -> Vec<i16> {
    (0..length).map(|_| random.sample()).collect()
}

fn silence(_: &mut Random, length: usize) -> Vec<i16> {
    vec![0; length]
}

/// Full-scale sines, another one each second.
fn tones(_: &mut Random, length: usize) -> Vec<i16> {
    let sine = |at: usize| {
        let turns = [200.0, 440.0, 1000.0, 2500.0][at / RATE as usize % 4] * at as f64 / RATE as f64;
        (32767.0 * (turns * std::f64::consts::TAU).sin()).round() as i16
    };
    (0..length).map(sine).collect()
}

fn interleaved(make: fn(&mut Random, usize) -> Vec<i16>, channels: u8, length: usize) -> Vec<i16> {
    let mut random = Random(1);
    lists::interleaved(&(0..channels).map(|_| make(&mut random, length)).collect::<Vec<_>>())
}

/// A stream of whole frames, at least so many seconds long: the given one's fragments over and over.
fn repeated(stream: &[u8], seconds: usize) -> Vec<u8> {
    let (version, channels) = (stream[4], stream[6]);
    let variant = Variant::try_from(stream[5]).unwrap();
    let frames = (seconds * RATE as usize).div_ceil(frame_samples(version));
    let size = frames * channels as usize * fragment_size(version, variant);
    let mut bytes = lists::header(version, variant, channels, frames * frame_samples(version));
    bytes.extend(stream[16..].iter().cycle().take(size));
    bytes
}

fn channels_word(channels: u8) -> &'static str {
    if channels == 1 { "mono" } else { "stereo" }
}

// ---- measuring

/// What is asked: the words of a table's row, the length in seconds, 0 for one fragment, and how many samples there are in all
/// channels.
#[derive(Clone)]
struct Input {
    words: Vec<String>,
    seconds: usize,
    samples: usize,
}

struct Row {
    call: &'static str,
    input: Input,
    ours: f64,
    rust: f64,
}

impl Row {
    fn ratio(&self) -> f64 {
        self.rust / self.ours
    }

    fn line(&self) -> String {
        let speed = |seconds: f64| self.input.samples as f64 / seconds / 1e6;
        let words = self.input.words.join(" ");
        let length = if self.input.seconds == 0 { String::new() } else { format!("{} s", self.input.seconds) };
        let [ours, rust, ratio] = [speed(self.ours), speed(self.rust), self.ratio()];
        format!("{:<12} {words:<19} {length:>6} {ours:>10.3} {rust:>10.3} {ratio:>8.3}", self.call)
    }
}

struct Bench {
    quick: bool,
    rows: Vec<Row>,
}

/// The reference's inspection as a call that gives the whole header, as ours is.
#[inline(never)]
fn inspected(file: &[u8]) -> Option<sqv4::Header> {
    sqv4::inspect(file).ok()
}

/// The seconds that one of `times` calls takes.
fn time<T>(times: u32, call: &impl Fn() -> T) -> f64 {
    let start = Instant::now();
    for _ in 0..times {
        black_box(call());
    }
    start.elapsed().as_secs_f64() / times as f64
}

impl Bench {
    /// Times both sides in turn, short calls many at a time, and keeps the best time of each. The two must give the same.
    fn race<T: PartialEq>(&mut self, call: &'static str, input: Input, ours: impl Fn() -> T, rust: impl Fn() -> T) {
        assert!(ours() == rust(), "{call} {:?}: the two sides differ", input.words);
        let times = (0.002 / time(1, &rust)).clamp(1.0, 10000.0) as u32;
        let (rounds, least) =
            if self.quick { (3, Duration::from_millis(30)) } else { (5, Duration::from_millis(150)) };
        let mut row = Row { call, input, ours: f64::MAX, rust: f64::MAX };
        let (start, mut round) = (Instant::now(), 0);
        // A pair that takes seconds is long enough to be measured three times.
        while round < 3 || (round < rounds && start.elapsed() < Duration::from_secs(3)) || start.elapsed() < least {
            row.ours = row.ours.min(time(times, &ours));
            row.rust = row.rust.min(time(times, &rust));
            round += 1;
        }
        println!("{}", row.line());
        self.rows.push(row);
    }

    fn lengths<'a>(&self, full: &'a [usize]) -> &'a [usize] {
        if self.quick { &full[..1] } else { full }
    }

    fn encode(&mut self) {
        println!("call         input               length       ours       Rust    ratio   (million samples a second)");
        for (sound, make) in SOUNDS {
            for channels in 1..=2 {
                for &seconds in self.lengths(&[1, 10, 60]) {
                    let pcm = interleaved(make, channels, seconds * RATE as usize);
                    for variant in VARIANTS {
                        self.encoding(sound, variant, channels, seconds, &pcm);
                    }
                }
            }
        }
        if !self.quick {
            self.encoding("speech", Variant::H, 1, 600, &interleaved(speech, 1, 600 * RATE as usize));
        }
    }

    fn encoding(&mut self, sound: &str, variant: Variant, channels: u8, seconds: usize, pcm: &[i16]) {
        let frames = (seconds * RATE as usize).div_ceil(63);
        let size = 16 + frames * channels as usize * fragment_size(3, variant);
        let words = [name(variant), channels_word(channels), sound].map(str::to_string).to_vec();
        self.race(
            "encode",
            Input { words, seconds, samples: pcm.len() },
            || {
                let mut out = vec![0; size];
                ours::encode(pcm, channels, RATE, variant as u8, 255, &mut out);
                out
            },
            || sqv4::encode_interleaved(pcm, channels, RATE, variant, 255).unwrap(),
        );
    }

    /// Decoding of every stream; inspection of those from speech and of the random ones.
    fn decode(&mut self) {
        let mut random = Random(1);
        for variant in VARIANTS {
            for channels in 1..=2 {
                for (sound, make) in SOUNDS {
                    let pcm = interleaved(make, channels, 1270 * 63);
                    let stream = sqv4::encode_interleaved(&pcm, channels, RATE, variant, 255).unwrap();
                    self.decoding(sound, &stream);
                }
                for version in 1..=2 {
                    self.decoding(
                        "random",
                        &lists::random_stream(&mut random, version, variant, channels, 1250 * 64),
                    );
                }
            }
        }
    }

    /// A stream of ten seconds at every length.
    fn decoding(&mut self, sound: &str, stream: &[u8]) {
        let (version, channels) = (stream[4], stream[6]);
        let variant = Variant::try_from(stream[5]).unwrap();
        let word = if version == 3 { sound.to_string() } else { format!("version {version}") };
        let words = vec![name(variant).to_string(), channels_word(channels).to_string(), word];
        for &seconds in self.lengths(&[1, 10, 60, 600]) {
            let file = repeated(stream, seconds);
            let samples = ours::inspect(&file).samples as usize * channels as usize;
            let input = Input { words: words.clone(), seconds, samples };
            self.race(
                "decode",
                input.clone(),
                || {
                    let mut out = vec![0; samples];
                    ours::decode(&file, &mut out);
                    out
                },
                || sqv4::decode(&file).unwrap().samples,
            );
            if sound == "speech" || version < 3 {
                self.race(
                    "inspect",
                    input,
                    || ours::inspect(black_box(&file)).samples as usize,
                    || inspected(black_box(&file)).unwrap().samples_per_channel,
                );
            }
        }
    }

    /// WAV reading, the samples loaded; and WAV writing to a file in memory.
    fn waves(&mut self) {
        let path = convert::scratch(".bench.wav");
        for (channels, fields) in [(1, MONO), (2, STEREO)] {
            for &seconds in self.lengths(&[1, 10, 60, 600]) {
                let samples = interleaved(noise, channels, seconds * RATE as usize);
                let file =
                    lists::wave(&[&lists::format_chunk(fields), &lists::chunk("data", &sample_bytes(&samples))]);
                self.race(
                    "WAV read",
                    Input { words: vec![channels_word(channels).to_string()], seconds, samples: samples.len() },
                    || {
                        let wave = ours::read_wave(&file);
                        let mut out = vec![0; wave.size / 2];
                        ours::load_samples(&file[wave.start..wave.start + wave.size], &mut out);
                        out
                    },
                    || wav::read_pcm16_wave(&file).unwrap().samples,
                );
                let ours = || {
                    let mut out = vec![0; 44 + 2 * samples.len()];
                    ours::write_wave(channels, RATE, &samples, &mut out);
                    std::fs::write(&path, out).unwrap();
                };
                let rust = || convert::write(&path, channels, RATE, &samples);
                // Nothing is returned, so the files themselves are compared.
                let written = |write: &dyn Fn()| {
                    write();
                    std::fs::read(&path).unwrap()
                };
                assert!(written(&ours) == written(&rust), "WAV write: the two sides differ");
                let words = vec![channels_word(channels).to_string()];
                self.race("WAV write", Input { words, seconds, samples: samples.len() }, ours, rust);
            }
        }
        std::fs::remove_file(&path).unwrap();
    }

    /// Calls on one fragment: the shortest whole streams, and the decoders of a single fragment.
    fn fragments(&mut self) {
        let mut random = Random(1);
        for variant in VARIANTS {
            let pcm = interleaved(voice, 1, 63);
            let words = vec![name(variant).to_string()];
            let input = Input { words: words.clone(), seconds: 0, samples: 63 };
            self.race(
                "1: encode",
                input.clone(),
                || {
                    let mut out = vec![0; 16 + fragment_size(3, variant)];
                    ours::encode(black_box(&pcm), 1, RATE, variant as u8, 255, &mut out);
                    out
                },
                || sqv4::encode_interleaved(black_box(&pcm), 1, RATE, variant, 255).unwrap(),
            );
            for version in 1..=3 {
                let count = frame_samples(version);
                let file = match version {
                    3 => sqv4::encode_interleaved(&pcm, 1, RATE, variant, 255).unwrap(),
                    _ => lists::random_stream(&mut random, version, variant, 1, count),
                };
                let words = vec![words[0].clone(), format!("version {version}")];
                let input = Input { words, seconds: 0, samples: count };
                self.race(
                    "1: decode",
                    input.clone(),
                    || {
                        let mut out = vec![0; count];
                        ours::decode(black_box(&file), &mut out);
                        out
                    },
                    || sqv4::decode(black_box(&file)).unwrap().samples,
                );
                self.race(
                    "1: inspect",
                    input.clone(),
                    || ours::inspect(black_box(&file)).samples as usize,
                    || inspected(black_box(&file)).unwrap().samples_per_channel,
                );
                let fragment = &file[16..];
                self.race(
                    "1: fragment",
                    input,
                    || {
                        let mut out = [0; 64];
                        let state = ours::State { predictor: 0, index: 0 };
                        ours::decode_fragment(version, variant as u8, state, black_box(fragment), &mut out[..count]);
                        out
                    },
                    || {
                        let mut out = [0; 64];
                        let fragment = black_box(fragment);
                        match version {
                            3 => sqv4::decode_fragment(variant, fragment, &mut out[..count]),
                            _ => {
                                let mut state = sqv4::State::default();
                                sqv4::decode_legacy_fragment(version, variant, &mut state, fragment, &mut out[..count])
                            }
                        }
                        out
                    },
                );
            }
        }
    }

    // ---- what it comes to

    fn mean(&self, value: impl Fn(&Row) -> f64, of: impl Fn(&Row) -> bool) -> f64 {
        let logs: Vec<f64> = self.rows.iter().filter(|row| of(row)).map(|row| value(row).ln()).collect();
        (logs.iter().sum::<f64>() / logs.len() as f64).exp()
    }

    fn least(&self, call: &str) -> &Row {
        let rows = self.rows.iter().filter(|row| row.call.starts_with(call));
        rows.min_by(|a, b| a.ratio().total_cmp(&b.ratio())).unwrap()
    }

    /// Geometric means of the ratios, by the words of the rows too, and the least of each call; how the time per sample grows; and
    /// the peak of memory. The last line has the ratios that are asked for.
    fn summary(&self) {
        const CALLS: [&str; 9] = [
            "encode", "decode", "inspect", "WAV read", "WAV write", "1: encode", "1: decode", "1: inspect", "1: fragment",
        ];
        println!("geometric means of the ratios:");
        for call in CALLS {
            let mut line = format!("{call} {:.3}", self.mean(Row::ratio, |row| row.call == call));
            let mut words: Vec<&String> = Vec::new();
            for word in self.rows.iter().filter(|row| row.call == call).flat_map(|row| &row.input.words) {
                if !words.contains(&word) {
                    words.push(word);
                }
            }
            for word in words {
                let ratio = self.mean(Row::ratio, |row| row.call == call && row.input.words.contains(word));
                line += &format!(", {word} {ratio:.3}");
            }
            println!("{line}");
            println!("  least: {}", self.least(call).line());
        }
        println!("nanoseconds a sample, ours and Rust:");
        for call in &CALLS[..5] {
            println!("{call}{}", self.growth(call));
        }
        println!("peak memory of this process: {}", peak_memory());
        let encode = VARIANTS.map(|variant| {
            let word = name(variant).to_string();
            let ratio = self.mean(Row::ratio, |row| row.call == "encode" && row.input.words.contains(&word));
            format!("{word} {ratio:.2}")
        });
        let decode = self.mean(Row::ratio, |row| row.call == "decode");
        let [least, one] = ["decode", "1:"].map(|call| self.least(call).ratio());
        println!("encode {}, decode {decode:.2}, its least {least:.2}, one fragment's least {one:.2}", encode.join(" "));
    }

    /// The mean time of a sample at each length. The one encoding of ten minutes has no others like it, and is left out.
    fn growth(&self, call: &str) -> String {
        let lengths = if call == "encode" { &[1, 10, 60][..] } else { &[1, 10, 60, 600] };
        let mean = |seconds, side: fn(&Row) -> f64| {
            self.mean(
                |row| side(row) / row.input.samples as f64 * 1e9,
                |row| row.call == call && row.input.seconds == seconds,
            )
        };
        self.lengths(lengths)
            .iter()
            .map(|&seconds| {
                format!(" {seconds} s {:.2} {:.2}", mean(seconds, |row| row.ours), mean(seconds, |row| row.rust))
            })
            .collect::<Vec<_>>()
            .join(",")
    }
}

/// VmHWM, as the system says it.
fn peak_memory() -> String {
    let status = std::fs::read_to_string("/proc/self/status").unwrap_or_default();
    status
        .lines()
        .find_map(|line| line.strip_prefix("VmHWM:"))
        .map_or("unknown".to_string(), |size| size.trim().to_string())
}
