//! Asks the proved code, called as C calls it, and the reference the same, and counts where they differ. oracle/diff builds
//! and starts this program; oracle/README.md says what it compares.

#[allow(dead_code)]
mod answer;
mod ask;
#[allow(dead_code)]
mod convert;
mod guard;
#[allow(dead_code)]
mod input;
mod lengths;
#[allow(dead_code)]
mod lists;
mod longest;
mod memory;
mod paper;
mod pointers;
#[allow(dead_code)]
#[path = "../../rust/src/raw.rs"]
mod postlapse;
#[allow(dead_code)]
mod print;
mod tally;
mod threads;

/// The reference, unchanged, as in main.rs.
#[allow(dead_code)]
mod reference {
    include!(env!("ORACLE_SQV4"));
    include!(env!("ORACLE_WAV"));
}

use ask::{Channels, Fragment, Sound};
use input::{Input, VARIANTS};
use lists::{Fields, MONO, RATE, Random, SPOILS, STEREO};
use memory::{Pages, Placement};
use paper::{fragment_size, frame_samples, prefix};
use reference::sqv4::{self, State, Variant};
use std::process::ExitCode;
use tally::Tally;

const DIFFERS: &str = "target/oracle/differs.txt";

const USAGE: &str = "usage: oracle/diff [N] [SEED]
       oracle/diff longest";

fn main() -> ExitCode {
    let words: Vec<String> = std::env::args().skip(1).collect();
    let numbers: Vec<u64> = words.iter().map_while(|word| word.parse().ok()).collect();
    let _ = std::fs::remove_file(DIFFERS);
    let tally = match numbers[..] {
        _ if words == ["longest"] => longest(),
        _ if numbers.len() < words.len() || words.len() > 2 => {
            eprintln!("{USAGE}");
            return ExitCode::from(2);
        }
        _ => compare(*numbers.first().unwrap_or(&100_000), *numbers.get(1).unwrap_or(&1)),
    };
    print!("{}", tally.report());
    if tally.differ() > 0 {
        std::fs::write(DIFFERS, tally.differing()).expect("target/oracle can be written");
        println!("the smallest input of each kind that differs: {DIFFERS}");
    }
    println!("{} compared, {} differ", tally.compared(), tally.differ());
    if tally.differ() > 0 { ExitCode::FAILURE } else { ExitCode::SUCCESS }
}

fn longest() -> Tally {
    let mut tally = Tally::new();
    longest::compare(&mut tally, &mut seeded(1));
    tally
}

/// All groups: `n` random inputs of each, and those that are the same at every run.
fn compare(n: u64, seed: u64) -> Tally {
    let (mut random, mut tally) = (seeded(seed), Tally::new());
    let groups: [Group; 9] = [
        ("lengths", lengths::random),
        ("sounds", sound),
        ("random streams", random_streams),
        ("encoded streams", encoded_streams),
        ("damaged streams", damaged_streams),
        ("damaged twice", twice_damaged_streams),
        ("fragment lists", fragment_list),
        ("WAV files", wave_file),
        ("sample bytes", sample_bytes),
    ];
    for (group, ask) in groups {
        tally.start(group);
        (0..n).for_each(|_| ask(&mut tally, &mut random));
    }
    tally.start("WAV to write");
    (0..n.div_ceil(10)).for_each(|_| write(&mut tally, &mut random));
    tally.start("whole converter");
    (0..n.div_ceil(1000)).for_each(|_| whole_converter(&mut tally, &mut random));
    listed_conversions(&mut tally, &mut random);

    let whole: [Group; 6] = [
        ("all lengths", lengths::all),
        ("all header bytes", header_bytes),
        ("all steps", steps),
        ("all volumes", volumes),
        ("single samples", single_samples),
        ("all WAV cuts", wave_cuts),
    ];
    for &(group, ask) in whole.iter().chain(bounds()) {
        tally.start(group);
        ask(&mut tally, &mut random);
    }
    tally.start("long streams");
    long_streams(&mut tally, &mut random, (30 * n as usize).clamp(10_000, 3_000_000));
    if bounds().is_empty() {
        eprintln!("the system has no addresses for 2^33 samples: 4, 35 and 36 are not compared");
    }
    guarded_calls(&mut tally, &mut random, n as usize);
    tally.start("threads at once");
    threads::at_once(&mut tally, &mut random, n.div_ceil(100) as usize);
    tally
}

/// The refusals of each call that is lent memory, all of which are asked in guarded memory.
const REFUSALS: [(&str, &[usize]); 9] = [
    ("encode", &[8, 1, 2, 3, 4, 13]),
    ("inspect", &[5, 6, 7, 8, 1, 9, 2, 10, 11, 12]),
    ("decode", &[5, 6, 7, 8, 1, 9, 2, 10, 11, 12, 13]),
    ("fragment", &[8, 7, 14, 15]),
    ("fragment lent", &[8, 7, 14, 15]),
    ("read", &[20, 21, 22, 23, 24, 25, 26, 27, 28, 29, 30, 31, 32, 33]),
    ("read strict", &[20, 21, 22, 23, 24, 25, 26, 27, 28, 29, 30, 31, 32, 33, 40, 41, 42]),
    ("load samples", &[13]),
    ("write", &[34, 35, 36, 37, 13]),
];

/// In guarded memory: inputs for every refusal, and a share of the random ones.
fn guarded_calls(tally: &mut Tally, random: &mut Random, n: usize) {
    tally.start("guarded");
    let listed = listed();
    guard::guarded(tally, random, listed.len(), &|at, tally, random| ask::input(tally, random, &listed[at]));
    let groups: [(usize, fn(&mut Tally, &mut Random)); 8] = [
        (20, sound),
        (20, random_streams),
        (20, damaged_streams),
        (20, twice_damaged_streams),
        (20, fragment_list),
        (20, wave_file),
        (20, sample_bytes),
        (200, write),
    ];
    for (share, ask) in groups {
        guard::guarded(tally, random, n.div_ceil(share), &|_, tally, random| ask(tally, random));
    }
    for (_, ask) in bounds() {
        guard::guarded(tally, random, 1, &|_, tally, random| ask(tally, random));
    }
    for (call, refusals) in REFUSALS {
        let due = refusals.iter().filter(|refusal| !bounds().is_empty() || ![4, 35, 36].contains(*refusal));
        due.for_each(|&refusal| tally.require(call, refusal));
    }
    tally.start("odd pointers");
    guard::apart(tally, random, n.div_ceil(20), &|_, tally, random| pointers::unaligned(tally, random));
    tally.start("null pointers");
    guard::apart(tally, random, 1, &|_, tally, random| pointers::nulls(tally, random));
}

/// The inputs of the lists that have refusals.
fn listed() -> Vec<Input> {
    let names = ["edges", "headers", "fragments", "waves", "writes", "refusals"];
    let text: String = names.iter().filter_map(|name| lists::list(name)).collect();
    input::read(&text).expect("a list can be read").into_iter().map(|(_, input)| input).collect()
}

/// Another row of numbers for each seed; the first ones are thrown away, since they resemble those of near seeds.
fn seeded(seed: u64) -> Random {
    let mut random = Random(seed.wrapping_mul(0x9E37_79B9_7F4A_7C15) | 1 << 63);
    for _ in 0..20 {
        random.next();
    }
    random
}

/// True once in `times`, at random.
fn rarely(random: &mut Random, times: usize) -> bool {
    random.below(times) == 0
}

// ---- sounds and streams

/// Samples of a channel: mostly around a frame's end, at times few or any number.
fn length(random: &mut Random, frame: usize) -> usize {
    match random.below(4) {
        0 => random.below(2 * frame + 4),
        1 => random.below(10),
        _ => (random.below(3) * frame + random.below(5)).saturating_sub(2),
    }
}

fn samples(random: &mut Random, channels: usize, length: usize) -> Vec<i16> {
    lists::interleaved(&(0..channels).map(|_| lists::signal(random, length)).collect::<Vec<_>>())
}

fn rate(random: &mut Random) -> u32 {
    [RATE, 1, u32::MAX, random.next() as u32][random.below(4)]
}

/// One encoding: now and then a variant, channel count, rate or total that is refused, or two of them.
fn sound(tally: &mut Tally, random: &mut Random) {
    let variant = if rarely(random, 32) { random.byte() } else { random.below(3) as u8 };
    let gain = [255, 255, 0, 1, 128, random.byte()][random.below(6)];
    let channels = 1 + random.below(2);
    let length = length(random, 63);
    let mut samples = samples(random, channels, length);
    if rarely(random, 16) {
        samples.push(random.sample());
    }
    let channels = if rarely(random, 16) { random.byte() } else { channels as u8 };
    let rate = if rarely(random, 16) { 0 } else { rate(random) };
    ask::encode(tally, random, &Sound { variant, gain, channels, rate, samples: &samples });
}

fn random_stream(random: &mut Random) -> Vec<u8> {
    let version = 1 + random.below(3) as u8;
    let variant = VARIANTS[random.below(3)];
    let (channels, samples) = (1 + random.below(2) as u8, length(random, frame_samples(version)));
    let mut bytes = lists::random_stream(random, version, variant, channels, samples);
    bytes[8..12].copy_from_slice(&rate(random).max(1).to_le_bytes());
    bytes
}

/// A stream by the reference's encoder, of few samples: encoding is slow.
fn encoded_stream(random: &mut Random) -> Vec<u8> {
    let (channels, length) = (1 + random.below(2), [1, 2, 63, 64, random.below(70)][random.below(5)]);
    let samples = samples(random, channels, length);
    sqv4::encode_interleaved(&samples, channels as u8, RATE, VARIANTS[random.below(3)], 255).unwrap()
}

fn random_streams(tally: &mut Tally, random: &mut Random) {
    let bytes = random_stream(random);
    ask::stream(tally, random, &bytes);
}

fn encoded_streams(tally: &mut Tally, random: &mut Random) {
    let bytes = encoded_stream(random);
    ask::stream(tally, random, &bytes);
}

fn damaged_streams(tally: &mut Tally, random: &mut Random) {
    let bytes = if rarely(random, 8) { encoded_stream(random) } else { random_stream(random) };
    let bytes = damaged(random, bytes);
    ask::stream(tally, random, &bytes);
}

fn twice_damaged_streams(tally: &mut Tally, random: &mut Random) {
    let bytes = random_stream(random);
    let bytes = damaged(random, bytes);
    let bytes = damaged(random, bytes);
    ask::stream(tally, random, &bytes);
}

/// One bit, one byte, a header byte, the rate or a fragment's index changed, a cut, some bytes more, or two fragments exchanged.
fn damaged(random: &mut Random, mut bytes: Vec<u8>) -> Vec<u8> {
    let (kind, length) = (random.below(8), bytes.len());
    let size = if length < 16 { 34 } else { claimed_size(&bytes) };
    let fragments = length.saturating_sub(16) / size;
    match kind {
        0 if length > 0 => bytes[random.below(length)] ^= 1 << random.below(8),
        1 if length > 0 => bytes[random.below(length)] = random.byte(),
        2 if length >= 16 => bytes[random.below(16)] = [0, 1, 2, 3, 4, 255, random.byte()][random.below(7)],
        3 if fragments > 0 => bytes[16 + random.below(fragments) * size + 1] = 86 + random.below(6) as u8,
        4 if fragments > 1 => {
            let (one, other) = (16 + random.below(fragments) * size, 16 + random.below(fragments) * size);
            (0..size).for_each(|at| bytes.swap(one + at, other + at));
        }
        5 if length >= 16 => bytes[8..12].copy_from_slice(&(random.below(3) as u32).to_le_bytes()),
        6 => bytes.extend((0..=random.below(40)).map(|_| random.byte()).collect::<Vec<_>>()),
        _ => bytes.truncate([length.saturating_sub(1), random.below(length + 1)][random.below(2)]),
    }
    bytes
}

/// The size of a fragment by the header, whatever its bytes.
fn claimed_size(bytes: &[u8]) -> usize {
    fragment_size(bytes[4], if bytes[5] == 0 { Variant::H } else { Variant::L })
}

/// Streams of up to `most` samples a channel: of each variant and channel count one that is encoded, and a random one
/// of each version.
fn long_streams(tally: &mut Tally, random: &mut Random, most: usize) {
    for variant in VARIANTS {
        for channels in 1..=2 {
            let length = most - random.below(most / 2);
            let samples = lists::interleaved(&(0..channels).map(|_| long_signal(random, length)).collect::<Vec<_>>());
            let (gain, rate) = ([255, random.byte()][random.below(2)], rate(random).max(1));
            let sound = Sound { variant: variant as u8, gain, channels, rate, samples: &samples };
            let stream = ask::encode(tally, random, &sound).expect("a sound is encoded");
            ask::stream(tally, random, &stream);
            for version in 1..=3 {
                let length = most - random.below(most / 2);
                let stream = lists::random_stream(random, version, variant, channels, length);
                ask::stream(tally, random, &stream);
            }
        }
    }
}

/// Sounds at any volume, with pauses between them, since to encode a pause takes little time.
fn long_signal(random: &mut Random, length: usize) -> Vec<i16> {
    let mut all = Vec::new();
    while all.len() < length {
        let (part, volume) = (1 + random.below(2000), random.below(257) as i32);
        all.extend(lists::signal(random, part).iter().map(|&sample| (sample as i32 * volume / 256) as i16));
        all.resize(all.len() + random.below(18_000), 0);
    }
    all.truncate(length);
    all
}

/// Every value of every header byte.
fn header_bytes(tally: &mut Tally, random: &mut Random) {
    let mut streams = vec![lists::case_3(), lists::header(3, Variant::L, 2, 0)];
    for version in 1..=3 {
        for (variant, channels) in VARIANTS.into_iter().zip([2, 1, 2]) {
            streams.push(lists::random_stream(random, version, variant, channels, frame_samples(version) + 1));
        }
    }
    for stream in streams {
        for at in 0..16 {
            (0..=255).for_each(|value| ask::stream(tally, random, &lists::changed(&stream, at, value)));
        }
    }
}

/// Every 7th sample alone; and for each volume the loudest sample that has it, before one that is softer. Each is encoded and
/// the reference's stream decoded.
fn single_samples(tally: &mut Tally, random: &mut Random) {
    let mut sounds: Vec<Vec<i16>> = (-32768..=32767).step_by(7).map(|sample| vec![sample]).collect();
    sounds.push(vec![32767]);
    for volume in 1..=255 {
        let loudest = volume * 32767 / 255;
        let softer = (-loudest..=loudest).step_by(1.max(loudest / 20) as usize);
        sounds.extend(softer.map(|sample| vec![loudest as i16, sample as i16]));
    }
    for variant in 0..3 {
        for samples in &sounds {
            let sound = Sound { variant, gain: 255, channels: 1, rate: RATE, samples };
            let stream = ask::encode(tally, random, &sound).expect("a sound is encoded");
            ask::stream(tally, random, &stream);
        }
    }
}

// ---- counts at their bounds

/// So many samples and more are refused: with 4 in each channel, with 35 and with 36 in a WAV file.
const TOO_MANY: usize = 1 << 32;
const TOO_MANY_TO_WRITE: usize = 1 << 31;
const TOO_MANY_WITH_HEADER: usize = (1 << 31) - 18;

type Group = (&'static str, fn(&mut Tally, &mut Random));

/// None where the system has no addresses for so many samples.
fn bounds() -> &'static [Group] {
    let enough = Pages::<i16>::zeros(Placement::Heap, 2 * TOO_MANY + 1).is_some();
    if enough { &[("most samples", most_samples), ("most to write", most_to_write)] } else { &[] }
}

/// Samples that take no memory, as long as nobody reads them. A refusal for their count must come before that.
fn zeros(tally: &Tally, count: usize) -> Pages<i16> {
    Pages::zeros(tally.placement(), count).expect("there are addresses for so many samples")
}

/// 4, and the refusals before it. One sample less is accepted: there the length needed is asked, without room.
fn most_samples(tally: &mut Tally, random: &mut Random) {
    for variant in 0..3 {
        let mut ask = |channels: u8, rate, variant, count| {
            let samples = &zeros(tally, count)[..];
            ask::encode(tally, random, &Sound { variant, gain: 255, channels, rate, samples });
        };
        ask(1, RATE, variant, TOO_MANY);
        ask(1, RATE, variant, TOO_MANY + 1);
        ask(2, RATE, variant, 2 * TOO_MANY);
        ask(2, RATE, variant, 2 * TOO_MANY - 1);
        ask(2, RATE, variant, 2 * TOO_MANY + 1);
        ask(2, 0, variant, 2 * TOO_MANY);
        ask(3, RATE, variant, TOO_MANY);
        ask(1, RATE, variant + 3, TOO_MANY);
        for channels in 1..=2 {
            let samples = &zeros(tally, channels * (TOO_MANY - 1))[..];
            let sound = Sound { variant, gain: 255, channels: channels as u8, rate: RATE, samples };
            let fragments = (TOO_MANY - 1).div_ceil(63) * channels;
            ask::encode_length(tally, &sound, 16 + fragments * fragment_size(3, VARIANTS[variant as usize]));
        }
    }
}

/// 35 and 36, each beside its neighbours, and the refusals around them. The most that is accepted is asked as above.
fn most_to_write(tally: &mut Tally, random: &mut Random) {
    let counts = [
        TOO_MANY_WITH_HEADER,
        TOO_MANY_WITH_HEADER + 1,
        TOO_MANY_TO_WRITE - 1,
        TOO_MANY_TO_WRITE,
        TOO_MANY_TO_WRITE + 1,
        TOO_MANY,
    ];
    for channels in 0..=3 {
        for count in counts {
            for rate in [RATE, u32::MAX] {
                ask::write(tally, random, channels, rate, &zeros(tally, count));
            }
        }
        ask::write(tally, random, channels, u32::MAX, &zeros(tally, TOO_MANY_WITH_HEADER - 1));
    }
    for channels in 1..=2 {
        let count = TOO_MANY_WITH_HEADER - 1;
        ask::write_length(tally, channels, RATE, &zeros(tally, count), 44 + 2 * count);
    }
}

// ---- fragments

/// Calls on two channels in any order, with refused ones among them. In version 3 the states may be any.
fn fragment_list(tally: &mut Tally, random: &mut Random) {
    let (version, variant) = (1 + random.below(3) as u8, random.below(3) as u8);
    let anew = rarely(random, 2);
    let states = [(); 2].map(|_| match version {
        _ if anew => State::default(),
        3 => State { predictor: random.next() as i32, index: random.next() as usize },
        _ => State { predictor: random.sample() as i32, index: random.below(89) },
    });
    let mut channels = Channels::new(states);
    for _ in 0..2 + random.below(7) {
        let channel = random.below(2);
        if rarely(random, 4) {
            refused_call(tally, random, &mut channels, channel, version, variant);
        } else {
            let bytes = fragment_bytes(random, version, variant);
            let count = fragment_count(random, version);
            channels.play(tally, channel, Fragment { version, variant, bytes: &bytes, count });
        }
    }
}

/// Random bytes: the codes behind the count too, and in version 3 every index byte.
fn fragment_bytes(random: &mut Random, version: u8, variant: u8) -> Vec<u8> {
    let size = fragment_size(version, VARIANTS[variant as usize]);
    let mut bytes: Vec<u8> = (0..size).map(|_| random.byte()).collect();
    bytes[0] = [0, 1, 255, bytes[0], bytes[0]][random.below(5)];
    if version == 3 && rarely(random, 2) {
        bytes[1] = random.below(90) as u8;
    }
    bytes
}

fn fragment_count(random: &mut Random, version: u8) -> usize {
    let most = frame_samples(version);
    [0, 1, most - 1, most, random.below(most + 1), random.below(most + 1)][random.below(6)]
}

/// A call that is refused, mostly for one cause: version, variant, the fragment's size, the count, or a state out of range.
fn refused_call(
    tally: &mut Tally,
    random: &mut Random,
    channels: &mut Channels,
    channel: usize,
    version: u8,
    variant: u8,
) {
    let mut bytes = fragment_bytes(random, version, variant);
    let mut count = fragment_count(random, version);
    let (mut said_version, mut said_variant, mut out_of_range) = (version, variant, false);
    for _ in 0..1 + random.below(4) / 3 {
        match random.below(5) {
            0 => said_version = [0, 4, 255, 4 + random.below(252) as u8][random.below(4)],
            1 => said_variant = [3, 255, 3 + random.below(253) as u8][random.below(3)],
            2 => bytes.resize([bytes.len() + 1, bytes.len().saturating_sub(1), random.below(70)][random.below(3)], 7),
            3 => count = frame_samples(version) + 1 + random.below(3),
            _ => out_of_range = true,
        }
    }
    let fragment = Fragment { version: said_version, variant: said_variant, bytes: &bytes, count };
    if out_of_range {
        let predictors = [-32769, 32768, i32::MIN, i32::MAX, random.sample() as i32, random.next() as i32];
        let indexes = [89, 255, 1 << 32, usize::MAX, random.below(89)];
        let state = State { predictor: predictors[random.below(6)], index: indexes[random.below(5)] };
        Channels::new([state; 2]).play(tally, channel, fragment);
    } else {
        channels.play(tally, channel, fragment);
    }
}

/// A fragment with these codes at its front.
fn coded(version: u8, variant: Variant, volume: u8, index: usize, codes: u8) -> Vec<u8> {
    let mut bytes = vec![0; fragment_size(version, variant)];
    bytes[..2].copy_from_slice(&[volume, index as u8]);
    bytes[prefix(version)] = codes;
    bytes
}

/// Every code at every index: in versions 1 and 2 from many predictors; and every two codes from predictor 0. In version 3 the
/// index stands in the fragment and the state counts for nothing.
fn steps(tally: &mut Tally, _: &mut Random) {
    let predictors = [-32768, -32767, -20000, -300, -5, -1, 0, 1, 5, 300, 20000, 32766, 32767];
    for version in 1..=3 {
        for variant in VARIANTS {
            for index in 0..=88 {
                for codes in 0..1u16 << (2 * variant.bits()) {
                    let bytes = coded(version, variant, 255, index, codes as u8);
                    let single = codes < 1 << variant.bits();
                    for &predictor in predictors.iter().filter(|&&predictor| single || predictor == 0) {
                        let fragment =
                            Fragment { version, variant: variant as u8, bytes: &bytes, count: 2 - single as usize };
                        Channels::new([State { predictor, index }; 2]).play(tally, 0, fragment);
                    }
                }
            }
        }
    }
}

/// Every volume: in versions 1 and 2 at many predictors, in version 3 after every code at every index.
fn volumes(tally: &mut Tally, _: &mut Random) {
    for volume in 0..=255 {
        for version in 1..=2 {
            let bytes = coded(version, Variant::H, volume, 0, 0);
            for predictor in (-32768..=32767).step_by(101).chain([-1, 0, 1, 32767]) {
                let fragment = Fragment { version, variant: 0, bytes: &bytes, count: 1 };
                Channels::new([State { predictor, index: 0 }; 2]).play(tally, 1, fragment);
            }
        }
        for variant in VARIANTS {
            for (index, code) in (0..=88).flat_map(|index| (0..1 << variant.bits()).map(move |code| (index, code))) {
                let bytes = coded(3, variant, volume, index, code);
                let fragment = Fragment { version: 3, variant: variant as u8, bytes: &bytes, count: 1 };
                Channels::new([State::default(); 2]).play(tally, 1, fragment);
            }
        }
    }
}

// ---- WAV files

/// A fmt chunk, a data chunk and others in any order, each at times wrong, doubled or left out; then at times other sizes, damages
/// and bytes after the end.
fn wave_bytes(random: &mut Random) -> Vec<u8> {
    let mut chunks = vec![format_chunk(random), data_chunk(random)];
    for _ in 0..random.below(3) {
        let contents: Vec<u8> = (0..random.below(8)).map(|_| random.byte()).collect();
        chunks.push(lists::chunk(["LIST", "fact", "FMT ", "dat "][random.below(4)], &contents));
    }
    match random.below(16) {
        0 => chunks.push(format_chunk(random)),
        1 => chunks.push(data_chunk(random)),
        2 => drop(chunks.remove(random.below(2))),
        _ => {}
    }
    for _ in 0..random.below(3) {
        let (one, other) = (random.below(chunks.len()), random.below(chunks.len()));
        chunks.swap(one, other);
    }
    let mut file = lists::wave(&chunks.iter().map(Vec::as_slice).collect::<Vec<_>>());
    if rarely(random, 4) {
        file.extend((0..random.below(12)).map(|_| random.byte()).collect::<Vec<_>>());
    }
    if rarely(random, 8) {
        let sizes =
            [random.below(16), file.len() - random.below(12), random.below(file.len() + 9), random.next() as usize];
        file = lists::riff_sized(&file, sizes[random.below(4)] as u32);
    }
    for _ in 0..[0, 0, 0, 1, 1, 2][random.below(6)] {
        damage_wave(random, &mut file);
    }
    file
}

fn wave_file(tally: &mut Tally, random: &mut Random) {
    let file = wave_bytes(random);
    ask::wave(tally, random, &file);
}

/// The fields of a mono or stereo file with any rate, or with one damage or two; at times cut, or with random bytes behind them.
fn format_chunk(random: &mut Random) -> Vec<u8> {
    let fields = [MONO, STEREO][random.below(2)];
    let rate = [RATE, random.next() as u32 / fields.align as u32][random.below(2)];
    let mut fields = Fields { rate, byte_rate: rate * fields.align as u32, ..fields };
    for _ in 0..[0, 0, 0, 0, 0, 0, 1, 2][random.below(8)] {
        SPOILS[random.below(SPOILS.len())](&mut fields);
    }
    let size = match random.below(8) {
        0 => [0, 14, 15, 17, 19, 20, 40][random.below(7)],
        1 | 2 => 18,
        _ => 16,
    };
    let mut bytes = lists::format_bytes(fields, size);
    bytes.iter_mut().skip(16).for_each(|byte| *byte = random.byte());
    lists::chunk("fmt ", &bytes)
}

/// Samples, mostly whole frames, at times with a size that is not theirs.
fn data_chunk(random: &mut Random) -> Vec<u8> {
    let size = if rarely(random, 4) { random.below(40) } else { 4 * random.below(20) };
    let contents: Vec<u8> = (0..size).map(|_| random.byte()).collect();
    if rarely(random, 16) {
        let sizes = [size + 1, size.saturating_sub(1), random.below(2 * size + 1), random.next() as usize];
        lists::sized_chunk("data", &contents, sizes[random.below(4)] as u32)
    } else {
        lists::chunk("data", &contents)
    }
}

/// One bit or byte changed, a cut, or a byte more.
fn damage_wave(random: &mut Random, file: &mut Vec<u8>) {
    let length = file.len();
    match random.below(4) {
        0 if length > 0 => file[random.below(length)] ^= 1 << random.below(8),
        1 if length > 0 => file[random.below(length)] = random.byte(),
        2 => file.push(random.byte()),
        _ => file.truncate(random.below(length + 1)),
    }
}

/// Every cut of small files, with the RIFF size as it was and with the cut's own, and every RIFF size.
fn wave_cuts(tally: &mut Tally, random: &mut Random) {
    let (list, odd) = (lists::chunk("LIST", b"INFO"), lists::chunk("odd ", b"odd"));
    for fields in [MONO, STEREO] {
        let (format, data) = (lists::format_chunk(fields), lists::chunk("data", &[1, 0, 0, 128, 255, 127, 3, 4]));
        let orders: [&[&[u8]]; 6] = [
            &[&format, &data],
            &[&data, &format],
            &[&list, &format, &odd, &data],
            &[&odd, &data, &list, &format, &odd],
            &[&format, &data, &data],
            &[&format, &format, &data],
        ];
        for chunks in orders {
            let file = lists::wave(chunks);
            for length in 0..=file.len() {
                ask::wave(tally, random, &file[..length]);
                ask::wave(tally, random, &lists::riff_sized(&file, length as u32));
                if length >= 8 {
                    ask::wave(tally, random, &lists::riff_sized(&file[..length], length as u32 - 8));
                }
            }
        }
    }
}

fn sample_bytes(tally: &mut Tally, random: &mut Random) {
    let bytes: Vec<u8> = (0..random.below(70)).map(|_| random.byte()).collect();
    ask::load(tally, random, &bytes);
}

/// A file to write: at times with a channel count or a rate that is refused, or with a partial frame.
fn write(tally: &mut Tally, random: &mut Random) {
    let channels = if rarely(random, 8) { random.byte() } else { 1 + random.below(2) as u8 };
    let rates = [0, RATE, u32::MAX / 4, u32::MAX / 4 + 1, u32::MAX / 2, u32::MAX / 2 + 1, random.next() as u32];
    let rate = rates[random.below(7)];
    let samples: Vec<i16> = (0..random.below(140)).map(|_| random.sample()).collect();
    ask::write(tally, random, channels, rate, &samples);
}

/// A file for the reference's converter, run as a program: a sound, at times damaged, or chunks as above.
fn whole_converter(tally: &mut Tally, random: &mut Random) {
    let fields = [MONO, STEREO][random.below(2)];
    let length = length(random, 63);
    let mut file = lists::sound(fields, &samples(random, fields.channels as usize, length));
    match random.below(4) {
        0 => damage_wave(random, &mut file),
        1 => file = wave_bytes(random),
        _ => {}
    }
    ask::whole_converter(tally, &file, VARIANTS[random.below(3)], random.byte());
}

/// The list of WAV files, which has every refusal of the reader, and so of the converter.
fn listed_conversions(tally: &mut Tally, random: &mut Random) {
    for (_, input) in input::read(&lists::list("waves").expect("a list")).expect("a list can be read") {
        if let Input::Wav(file) = input {
            ask::whole_converter(tally, &file, VARIANTS[random.below(3)], random.byte());
        }
    }
    for refusal in 20..=33 {
        ["stream", "preview"].iter().for_each(|call| tally.require(call, refusal));
    }
}
