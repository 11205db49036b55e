//! Lists of inputs. They are the same at every run: the random numbers start from a fixed seed.

mod refusals;

use crate::input::{VARIANTS, encode_line, hex, name, sample_bytes, short_hex, words};
use crate::paper::{fragment_size, frame_samples, prefix};
use crate::reference::sqv4::{self, Variant};

pub const RATE: u32 = 8000;

pub fn list(name: &str) -> Option<String> {
    match name {
        "matrix" => Some(matrix()),
        "edges" => Some(edges()),
        "decode" => Some(decode()),
        "headers" => Some(headers()),
        "steps" => Some(steps()),
        "fragments" => Some(fragments()),
        "lengths" => Some(lengths()),
        "waves" => Some(waves()),
        "writes" => Some(writes()),
        "programs" => Some(programs()),
        "refusals" => Some(refusals::list()),
        "short" => Some(refusals::short()),
        _ => None,
    }
}

// ---- random numbers and signals

/// Marsaglia's xorshift generator of 64 bits, which may start anywhere but at 0.
pub struct Random(pub u64);

impl Random {
    fn new() -> Self {
        Random(0x5351_5634_2545_F491)
    }

    pub fn next(&mut self) -> u64 {
        self.0 ^= self.0 << 13;
        self.0 ^= self.0 >> 7;
        self.0 ^= self.0 << 17;
        self.0 >> 16
    }

    /// A number below `end`.
    pub fn below(&mut self, end: usize) -> usize {
        (self.next() % end as u64) as usize
    }

    pub fn byte(&mut self) -> u8 {
        self.below(256) as u8
    }

    /// A number in -most..=most.
    pub fn around(&mut self, most: i32) -> i32 {
        self.below(2 * most as usize + 1) as i32 - most
    }

    pub fn sample(&mut self) -> i16 {
        self.below(65536) as u16 as i16
    }
}

/// A decaying tone that is struck again every 37 samples, as a voice is: a resonator in whole numbers.
pub fn tone(random: &mut Random, length: usize) -> Vec<i16> {
    let turn = 20000 + random.below(11000) as i32;
    let loudness = 1000 + random.below(12000) as i32;
    let (mut last, mut before) = (0, 0);
    (0..length)
        .map(|at| {
            let strike = if at % 37 == 0 { loudness } else { 0 };
            let now = (turn * last / 16384 - before * 15 / 16 + strike).clamp(-32768, 32767);
            (before, last) = (last, now);
            now as i16
        })
        .collect()
}

pub fn noise(random: &mut Random, length: usize) -> Vec<i16> {
    let most = [200, 3000, 32767][random.below(3)];
    (0..length).map(|_| random.around(most) as i16).collect()
}

pub fn full_scale(random: &mut Random, length: usize) -> Vec<i16> {
    (0..length).map(|_| [-32768, 32767, -32767, 0][random.below(4)]).collect()
}

fn small(random: &mut Random, length: usize) -> Vec<i16> {
    (0..length).map(|_| random.around(3) as i16).collect()
}

/// One channel: one of the signals, or four of them one after the other.
pub fn signal(random: &mut Random, length: usize) -> Vec<i16> {
    const SIGNALS: [fn(&mut Random, usize) -> Vec<i16>; 4] = [tone, noise, full_scale, small];
    match random.below(5) {
        4 if length > 0 => {
            let part = length.div_ceil(4);
            let mut all: Vec<i16> = SIGNALS.iter().flat_map(|signal| signal(random, part)).collect();
            let start = random.below(all.len());
            all.rotate_left(start);
            all.truncate(length);
            all
        }
        kind => SIGNALS[kind % 4](random, length),
    }
}

/// The channels' samples in turn.
pub fn interleaved(channels: &[Vec<i16>]) -> Vec<i16> {
    (0..channels[0].len()).flat_map(|at| channels.iter().map(move |channel| channel[at])).collect()
}

// ---- encoding

/// Every variant, channel count and gain at lengths around the end of a frame.
fn matrix() -> String {
    let mut random = Random::new();
    let mut text = String::new();
    for variant in VARIANTS {
        for channels in 1..=2u8 {
            for gain in [0, 1, 128, 200, 255] {
                for length in [1, 62, 63, 64, 65, 70] {
                    let signals: Vec<_> = (0..channels).map(|_| signal(&mut random, length)).collect();
                    text += &encode_line(variant, gain, channels, RATE, &interleaved(&signals));
                }
            }
        }
    }
    text
}

/// No samples, one sample at each limit, and the encoder's refusals, alone and where two are due.
fn edges() -> String {
    let mut text = String::new();
    for variant in VARIANTS {
        for channels in [1, 2] {
            text += &encode_line(variant, 255, channels, RATE, &[]);
        }
        for sample in [0, 1, -1, 128, 129, -129, 1000, 32767, -32767, -32768] {
            text += &encode_line(variant, 255, 1, RATE, &[sample]);
        }
        text += &encode_line(variant, 128, 1, u32::MAX, &[-1000]);
        for channels in [0, 3, 255] {
            text += &encode_line(variant, 255, channels, RATE, &[7]);
            text += &encode_line(variant, 255, channels, 0, &[7]);
        }
        for samples in [&[][..], &[7], &[7, -7]] {
            text += &encode_line(variant, 255, 2, 0, samples);
        }
        text += &encode_line(variant, 255, 2, RATE, &[7]);
        text += &encode_line(variant, 255, 2, RATE, &[7, -7, 7]);
    }
    text
}

/// Every variant, channel count and version at the lengths around one frame's end and two's, each stream inspected too; and case 10:
/// an index of 88 and of 89, and both halves of the last byte after 63 H samples.
fn lengths() -> String {
    let mut random = Random::new();
    let mut text = String::new();
    for variant in VARIANTS {
        for channels in 1..=2 {
            for length in [0, 1, 62, 63, 64, 65, 126, 127, 128, 129] {
                let signals: Vec<_> = (0..channels).map(|_| signal(&mut random, length)).collect();
                text += &encode_line(variant, random.byte(), channels, RATE, &interleaved(&signals));
                for version in 1..=3 {
                    let stream = hex(&random_stream(&mut random, version, variant, channels, length));
                    text += &format!("inspect {stream}\ndecode {stream}\n");
                }
            }
        }
    }
    for (at, value) in [(17, 88), (17, 89), (49, 0x0F), (49, 0x10), (49, 0x80)] {
        let loud = changed(&random_stream(&mut random, 3, Variant::H, 1, 63), 16, 255);
        let stream = hex(&changed(&loud, at, value));
        text += &format!("inspect {stream}\ndecode {stream}\n");
    }
    text
}

// ---- streams

/// The header of a stream.
pub fn header(version: u8, variant: Variant, channels: u8, samples: usize) -> Vec<u8> {
    let mut bytes = sqv4::header_bytes(variant, channels, RATE, samples as u32).to_vec();
    bytes[4] = version;
    bytes
}

/// A fragment of random codes for `count` samples. Volumes 0 and 255 come as often as all the others together.
pub fn random_fragment(random: &mut Random, version: u8, variant: Variant, count: usize) -> Vec<u8> {
    let mut bytes = vec![0; fragment_size(version, variant)];
    bytes[0] = [0, 255, random.byte(), random.byte()][random.below(4)];
    if version == 3 {
        bytes[1] = random.below(89) as u8;
    }
    for bit in 0..count * variant.bits() {
        bytes[prefix(version) + bit / 8] |= (random.below(2) as u8) << (bit % 8);
    }
    bytes
}

pub fn random_stream(random: &mut Random, version: u8, variant: Variant, channels: u8, samples: usize) -> Vec<u8> {
    let mut bytes = header(version, variant, channels, samples);
    for first in (0..samples).step_by(frame_samples(version)) {
        let count = (samples - first).min(frame_samples(version));
        for _ in 0..channels {
            bytes.extend(random_fragment(random, version, variant, count));
        }
    }
    bytes
}

/// One bit flipped (as often as the rest together), one byte cut off, or one added.
fn damaged(random: &mut Random, mut bytes: Vec<u8>) -> Vec<u8> {
    match random.below(4) {
        0 => bytes.truncate(bytes.len() - 1),
        1 => bytes.push(random.byte()),
        _ => {
            let at = random.below(bytes.len());
            bytes[at] ^= 1 << random.below(8);
        }
    }
    bytes
}

fn decode() -> String {
    let mut random = Random::new();
    let mut text = String::new();
    for version in 1..=3 {
        for variant in VARIANTS {
            for channels in 1..=2 {
                for samples in [1, 63, 64, 65, 128, 130] {
                    let stream = random_stream(&mut random, version, variant, channels, samples);
                    text += &format!("decode {}\n", hex(&stream));
                    text += &format!("decode {}\n", hex(&damaged(&mut random, stream)));
                }
            }
        }
    }
    text
}

/// Single fragments from any state, at counts from none to the most. An index byte above 88 is among them.
fn fragments() -> String {
    let mut random = Random::new();
    let mut text = String::new();
    for version in 1..=3 {
        for variant in VARIANTS {
            for count in [0, 1, 2, 7, 8, 62, 63, frame_samples(version)] {
                for index in [0, 88, random.below(89)] {
                    let mut bytes = random_fragment(&mut random, version, variant, frame_samples(version));
                    if version == 3 && random.below(2) == 0 {
                        bytes[1] = [88, 89, 128, 255][random.below(4)];
                    }
                    let predictor = [0, 32767, -32768, random.sample()][random.below(4)];
                    let words = format!("{} {predictor} {index} {count} {}", name(variant), hex(&bytes));
                    text += &format!("fragment {version} {words}\n");
                }
            }
        }
    }
    text
}

/// Every code at every index from predictor 0, and at every 8th index from predictors near the clamps and near 0.
fn steps() -> String {
    let mut text = String::new();
    for version in 1..=3 {
        for variant in VARIANTS {
            for (predictor, stride) in [(0, 1), (32767, 8), (-32768, 8), (5, 8), (-5, 8)] {
                for index in (0..=88).step_by(stride) {
                    for code in 0..1 << variant.bits() {
                        text += &format!("step {version} {} {predictor} {index} {code}\n", name(variant));
                    }
                }
            }
        }
    }
    text
}

// ---- headers

type Damage = fn(&mut Vec<u8>);

/// A damage for each check of inspection, in the order of the checks. The length's adds a byte, and the last two are in
/// the only fragment, which holds one H sample.
const DAMAGES: [Damage; 10] = [
    |bytes| bytes.truncate(15),
    |bytes| bytes[3] = b'5',
    |bytes| bytes[4] = 4,
    |bytes| bytes[5] = 3,
    |bytes| bytes[6] = 3,
    |bytes| bytes[7] = 1,
    |bytes| bytes[8..12].fill(0),
    |bytes| bytes.push(0),
    |bytes| bytes[17] = 89,
    |bytes| bytes[18] = 0x17,
];

/// The file of the scope paper's case 3.
pub fn case_3() -> Vec<u8> {
    sqv4::encode_interleaved(&[1000], 1, RATE, Variant::H, 255).unwrap()
}

fn headers() -> String {
    let good = case_3();
    let mut streams = vec![good.clone()];
    streams.extend((0..=20).map(|length| good[..length].to_vec()));
    for at in 0..20 {
        for value in [0, 1, 2, 3, 4, 88, 89, 255] {
            streams.push(changed(&good, at, value));
        }
    }
    streams.extend(pairs(&good));
    streams.extend(later_damages(&good));
    streams.extend(fragment_damages());
    streams.iter().map(|bytes| format!("inspect {}\n", hex(bytes))).collect()
}

pub fn changed(stream: &[u8], at: usize, value: u8) -> Vec<u8> {
    let mut bytes = stream.to_vec();
    bytes[at] = value;
    bytes
}

/// Each two of the damages. A cut is made last, so that the other has its place.
fn pairs(good: &[u8]) -> Vec<Vec<u8>> {
    let mut streams = Vec::new();
    for first in 0..DAMAGES.len() {
        for second in first + 1..DAMAGES.len() {
            let mut bytes = good.to_vec();
            DAMAGES[second](&mut bytes);
            DAMAGES[first](&mut bytes);
            streams.push(bytes);
        }
    }
    streams
}

fn damaged_by(damage: Damage, good: &[u8]) -> Vec<u8> {
    let mut bytes = good.to_vec();
    damage(&mut bytes);
    bytes
}

/// All the damages from each one on.
fn later_damages(good: &[u8]) -> Vec<Vec<u8>> {
    let mut bytes = good.to_vec();
    let mut streams = Vec::new();
    for damage in DAMAGES.iter().rev() {
        damage(&mut bytes);
        streams.push(bytes.clone());
    }
    streams
}

/// Four fragments, two frames of two channels, with an index above 88 in one and the last bit set in another or the
/// same: the checks go fragment by fragment. The last frame holds one sample. In versions 1 and 2 the changed
/// bytes of the full frame are codes and accepted.
fn fragment_damages() -> Vec<Vec<u8>> {
    let mut random = Random::new();
    let mut streams = Vec::new();
    for version in 1..=3 {
        for variant in VARIANTS {
            let good = random_stream(&mut random, version, variant, 2, frame_samples(version) + 1);
            let size = fragment_size(version, variant);
            for (index_at, bit_at) in (0..16).map(|pair| (pair / 4, pair % 4)) {
                let mut bytes = changed(&good, 16 + index_at * size + 1, 89);
                bytes[16 + bit_at * size + size - 1] |= 0x80;
                streams.push(bytes);
            }
        }
    }
    streams
}

// ---- WAV files

/// The fields of a fmt chunk.
#[derive(Clone, Copy)]
pub struct Fields {
    pub encoding: u16,
    pub channels: u16,
    pub rate: u32,
    pub byte_rate: u32,
    pub align: u16,
    pub bits: u16,
}

pub const MONO: Fields = Fields { encoding: 1, channels: 1, rate: RATE, byte_rate: 2 * RATE, align: 2, bits: 16 };
pub const STEREO: Fields = Fields { channels: 2, byte_rate: 4 * RATE, align: 4, ..MONO };

/// Two samples of one channel, or one of two.
const TWO: [u8; 4] = [1, 0, 0, 128];

/// The contents of a fmt chunk: the fields, and zeros up to a size. A smaller size cuts them.
pub fn format_bytes(fields: Fields, size: usize) -> Vec<u8> {
    let Fields { encoding, channels, rate, byte_rate, align, bits } = fields;
    let mut bytes = [encoding.to_le_bytes(), channels.to_le_bytes()].concat();
    bytes.extend([rate.to_le_bytes(), byte_rate.to_le_bytes()].concat());
    bytes.extend([align.to_le_bytes(), bits.to_le_bytes()].concat());
    bytes.resize(size, 0);
    bytes
}

/// A chunk that says a size. There is a pad byte after odd contents.
pub fn sized_chunk(letters: &str, contents: &[u8], size: u32) -> Vec<u8> {
    let pad = vec![0; contents.len() % 2];
    [letters.as_bytes(), &size.to_le_bytes(), contents, &pad].concat()
}

pub fn chunk(letters: &str, contents: &[u8]) -> Vec<u8> {
    sized_chunk(letters, contents, contents.len() as u32)
}

pub fn format_chunk(fields: Fields) -> Vec<u8> {
    chunk("fmt ", &format_bytes(fields, 16))
}

/// A file of these chunks, which ends at the RIFF end.
pub fn wave(chunks: &[&[u8]]) -> Vec<u8> {
    let body = chunks.concat();
    [b"RIFF", &(body.len() as u32 + 4).to_le_bytes()[..], b"WAVE", &body].concat()
}

/// A file with another RIFF size.
pub fn riff_sized(file: &[u8], size: u32) -> Vec<u8> {
    [&file[..4], &size.to_le_bytes(), &file[8..]].concat()
}

/// WAV files: every cut and every RIFF size of a small one, chunks in many orders, and each refusal, alone and where two are due.
fn waves() -> String {
    let good = wave(&[&format_chunk(MONO), &chunk("data", &TWO)]);
    let mut files: Vec<_> = (0..good.len()).map(|length| good[..length].to_vec()).collect();
    files.extend((0..43).chain([u32::MAX]).map(|size| riff_sized(&good, size)));
    for at in [0, 3, 8, 11] {
        files.push(changed(&good, at, b'X'));
        files.push(changed(&riff_sized(&good, 41), at, b'X'));
    }
    files.extend(chunk_orders());
    files.extend(cut_chunks());
    files.extend(format_damages());
    files.iter().map(|bytes| format!("wav {}\n", hex(bytes))).collect()
}

/// Chunks in many orders, none or two of a kind, other letters, and sizes of the fmt and the data chunk.
fn chunk_orders() -> Vec<Vec<u8>> {
    let (mono, stereo, data) = (&format_chunk(MONO)[..], &format_chunk(STEREO)[..], &chunk("data", &TWO)[..]);
    let (list, odd, fact) =
        (&chunk("LIST", b"INFO")[..], &chunk("odd ", b"odd")[..], &chunk("fact", &[2, 0, 0, 0])[..]);
    let (none, partial) = (&chunk("data", &[])[..], &chunk("data", &TWO[..3])[..]);
    let float = Fields { encoding: 3, ..MONO };
    let mut files = vec![
        wave(&[mono, data]),
        wave(&[stereo, data]),
        wave(&[data, mono]),
        wave(&[data, stereo]),
        wave(&[list, mono, data]),
        wave(&[mono, odd, data]),
        wave(&[mono, data, odd]),
        wave(&[odd, mono, list, fact, data, odd]),
        wave(&[odd, data, odd, stereo, odd]),
        wave(&[mono, none]),
        wave(&[none, stereo]),
        wave(&[mono, partial]),
        wave(&[partial, stereo]),
        wave(&[stereo, &chunk("data", &TWO[..2])]),
        wave(&[]),
        wave(&[list]),
        wave(&[mono]),
        wave(&[data]),
        wave(&[partial]),
        wave(&[mono, mono]),
        wave(&[mono, data, mono]),
        wave(&[mono, data, data]),
        wave(&[mono, none, none]),
        wave(&[mono, mono, data, data]),
        wave(&[mono, data, mono, data]),
        wave(&[mono, data, data, mono]),
        wave(&[data, data]),
        wave(&[&chunk("FMT ", &format_bytes(float, 16)), data]),
        wave(&[&format_chunk(float), data, data]),
        wave(&[&format_chunk(float), data, b"LIST"]),
        wave(&[mono, &chunk("DATA", &TWO[..3])]),
    ];
    for size in [0, 14, 15, 16, 17, 18, 40] {
        let format = chunk("fmt ", &format_bytes(MONO, size));
        files.push(wave(&[&format, data]));
        files.push(wave(&[&format]));
    }
    files
}

/// Chunks that the RIFF end cuts, with the rest of the chunk after it or not, and bytes after the RIFF end.
fn cut_chunks() -> Vec<Vec<u8>> {
    let (mono, data) = (&format_chunk(MONO)[..], &chunk("data", &TWO)[..]);
    let good = wave(&[mono, data]);
    let mut files = Vec::new();
    for letters in ["LIST", "fmt ", "data"] {
        for size in [1, 3, 4, 5, u32::MAX - 1, u32::MAX] {
            let last = sized_chunk(letters, &TWO[..2], size);
            files.push(wave(&[mono, data, &last]));
        }
    }
    for size in [2, 3, 4, 5, 6] {
        files.push(wave(&[mono, &sized_chunk("data", &TWO, size)]));
    }
    let far = sized_chunk("data", &[], u32::MAX);
    let odd = chunk("odd ", b"odd");
    let short = chunk("fmt ", &format_bytes(MONO, 15));
    for (last, inside) in [(&far, 1), (&far, 4), (&far, 7), (&odd, 11), (&short, 23)] {
        let file = [&good[..], last].concat();
        let cut = &file[..good.len() + inside as usize];
        files.push(riff_sized(&file, 40 + inside));
        files.push(riff_sized(cut, 40 + inside));
        files.push(riff_sized(cut, 41 + inside));
    }
    for after in [mono, data, b"?"] {
        files.push([&good, after].concat());
    }
    files
}

pub type Spoil = fn(&mut Fields);

/// Damages of the fmt chunk's fields in the order of the checks.
pub const SPOILS: [Spoil; 14] = [
    |fields| fields.encoding = 3,
    |fields| fields.encoding = 0xFFFE,
    |fields| fields.bits = 8,
    |fields| fields.bits = 24,
    |fields| fields.channels = 0,
    |fields| fields.channels = 3,
    |fields| fields.channels = 32769,
    |fields| fields.rate = 0,
    |fields| fields.rate = 1 << 30,
    |fields| fields.rate = u32::MAX,
    |fields| fields.align = 2,
    |fields| fields.align = 0,
    |fields| fields.byte_rate = 2 * RATE,
    |fields| fields.byte_rate = 4 * RATE + 1,
];

/// A stereo file with one damage of the fields.
fn spoiled(spoil: Spoil) -> Vec<u8> {
    let mut fields = STEREO;
    spoil(&mut fields);
    wave(&[&format_chunk(fields), &chunk("data", &TWO)])
}

/// Each damage of the fields, alone, and together with the next one and no data; and rates at the limits.
fn format_damages() -> Vec<Vec<u8>> {
    let mut files = Vec::new();
    for (at, spoil) in SPOILS.iter().enumerate() {
        let mut both = STEREO;
        if let Some(next) = SPOILS.get(at + 1) {
            next(&mut both);
        }
        spoil(&mut both);
        files.push(spoiled(*spoil));
        files.push(wave(&[&format_chunk(both)]));
    }
    files.extend(rates_around());
    files
}

/// Mono and stereo files, each at the highest rate and at one more.
fn rates_around() -> Vec<Vec<u8>> {
    let (mono, stereo) = (u32::MAX / 2, u32::MAX / 4);
    let rates = [(MONO, mono), (MONO, mono + 1), (STEREO, stereo), (STEREO, stereo + 1)];
    let files = rates.map(|(fields, rate)| {
        let byte_rate = rate.wrapping_mul(fields.align as u32);
        wave(&[&format_chunk(Fields { rate, byte_rate, ..fields }), &chunk("data", &TWO)])
    });
    files.to_vec()
}

/// Files to write: channel counts and rates at their limits, no samples, partial frames, the limits of a sample.
fn writes() -> String {
    let mut random = Random::new();
    let mut text = String::new();
    for channels in [0, 1, 2, 3, 255] {
        for rate in [0, 1, RATE, u32::MAX / 4, u32::MAX / 4 + 1, u32::MAX / 2, u32::MAX / 2 + 1, u32::MAX] {
            let mut samples = vec![-32768, 32767, -1, 0, 1];
            samples.extend((0..random.below(64)).map(|_| random.sample()));
            samples.truncate([0, 1, 2, 64][random.below(4)]);
            text += &format!("write {channels} {rate}{}\n", words(&samples));
        }
    }
    text
}

// ---- standard input of the programs

/// Each refusal that a program can print, what it accepts, and inputs as long as it takes.
fn programs() -> String {
    let mut random = Random::new();
    let [below, most, above] = [65535, 65536, 65537];
    let stream = long_stream(&mut random, most);
    let too_long = long_sound(&mut random, Variant::H, MONO, above);
    let wrong_and_long = changed(&too_long, 0, 3);
    [
        group("converter", "38, also with a wrong variant", vec![vec![], vec![0], vec![3], too_long, wrong_and_long]),
        group("converter", "8, also with a bad WAV", wrong_variants()),
        group("converter", "20 to 33", unreadable().iter().map(|file| to_convert(0, 255, file)).collect()),
        group(
            "converter",
            "variants, mono and stereo, gains 255, 128 and 0",
            sounds(&mut random, 70, &[255, 128, 0]),
        ),
        group("converter", "no samples", sounds(&mut random, 0, &[255])),
        group("converter", "other chunks, other rates, one frame and one sample more", other_sounds(&mut random)),
        group("converter", "65,535 and 65,536 bytes", long_sounds(&mut random, &[below, most])),
        group("inspector", "38, also with nothing of a stream", vec![grown(&stream, above), vec![0; above]]),
        group("inspector", "5, 6, 7, 8, 1, 9, 2, 10, 11, 12", damaged_headers()),
        group("inspector", "all damages from each one on", later_damages(&case_3())),
        group("inspector", "case 3; index 88; rates 1 and 4,294,967,295", accepted_headers()),
        group("inspector", "versions, variants, mono and stereo", streams(&mut random)),
        group("inspector", "65,535 bytes (10) and 65,536", vec![stream[..below].to_vec(), stream]),
    ]
    .concat()
}

/// A comment, and a line for each input.
fn group(program: &str, says: &str, inputs: Vec<Vec<u8>>) -> String {
    let lines: String = inputs.iter().map(|input| format!("{program} {}\n", short_hex(input))).collect();
    format!("# {program}: {says}\n{lines}")
}

fn grown(bytes: &[u8], length: usize) -> Vec<u8> {
    let mut bytes = bytes.to_vec();
    bytes.resize(length, 0);
    bytes
}

fn to_convert(variant: u8, gain: u8, file: &[u8]) -> Vec<u8> {
    [&[variant, gain], file].concat()
}

/// A WAV file of these samples.
pub fn sound(fields: Fields, samples: &[i16]) -> Vec<u8> {
    wave(&[&format_chunk(fields), &chunk("data", &sample_bytes(samples))])
}

fn wrong_variants() -> Vec<Vec<u8>> {
    let good = sound(MONO, &[1000]);
    let files = [(3, &good[..]), (255, &good), (3, b""), (255, b"R"), (3, &good[..44])];
    files.map(|(variant, file)| to_convert(variant, 255, file)).to_vec()
}

/// Files for each refusal of the WAV reader, in the order of their numbers.
fn unreadable() -> Vec<Vec<u8>> {
    let (mono, stereo, data) = (&format_chunk(MONO)[..], &format_chunk(STEREO)[..], &chunk("data", &TWO)[..]);
    let good = wave(&[mono, data]);
    let mut files = vec![
        vec![],
        b"R".to_vec(),
        good[..11].to_vec(),
        changed(&good, 3, b'X'),
        changed(&good, 8, b'X'),
        riff_sized(&good, 3),
        riff_sized(&good, 41),
        riff_sized(&good, u32::MAX),
        riff_sized(&[&good[..], b"LIST"].concat(), 44),
        wave(&[mono, &sized_chunk("data", &TWO, 5)]),
        wave(&[mono, data, mono]),
        wave(&[&chunk("fmt ", &format_bytes(MONO, 14)), data]),
        wave(&[mono, data, data]),
        wave(&[data]),
    ];
    files.extend(SPOILS.map(spoiled));
    files.extend([
        wave(&[mono]),
        wave(&[mono, &chunk("data", &TWO[..3])]),
        wave(&[stereo, &chunk("data", &TWO[..2])]),
    ]);
    files
}

/// Every variant, mono and stereo, at these gains.
fn sounds(random: &mut Random, length: usize, gains: &[u8]) -> Vec<Vec<u8>> {
    let mut inputs = Vec::new();
    for variant in VARIANTS {
        for fields in [MONO, STEREO] {
            for &gain in gains {
                let signals: Vec<_> = (0..fields.channels).map(|_| signal(random, length)).collect();
                inputs.push(to_convert(variant as u8, gain, &sound(fields, &interleaved(&signals))));
            }
        }
    }
    inputs
}

/// Data before fmt, chunks that are passed over, a long fmt, bytes after the RIFF end, rates at the limits, and a frame's end.
fn other_sounds(random: &mut Random) -> Vec<Vec<u8>> {
    let (mono, data, odd) = (&format_chunk(MONO)[..], &chunk("data", &TWO)[..], &chunk("odd ", b"odd")[..]);
    let rate = u32::MAX / 2;
    let mut files = vec![
        wave(&[data, mono]),
        wave(&[odd, mono, &chunk("LIST", b"INFO"), data, odd]),
        wave(&[&chunk("fmt ", &format_bytes(MONO, 18)), data]),
        [&wave(&[mono, data])[..], b"?"].concat(),
        sound(Fields { rate: 1, byte_rate: 2, ..MONO }, &[1000]),
        sound(Fields { rate, byte_rate: 2 * rate, ..MONO }, &[1000]),
    ];
    files.extend([63, 64].map(|length| sound(MONO, &signal(random, length))));
    files.iter().map(|file| to_convert(0, 255, file)).collect()
}

/// An input of a given length: a tone, silence behind it, and after the RIFF end what does not make a whole frame.
fn long_sound(random: &mut Random, variant: Variant, fields: Fields, length: usize) -> Vec<u8> {
    let mut samples = tone(random, 200);
    samples.resize((length - 46) / fields.align as usize * fields.channels as usize, 0);
    grown(&to_convert(variant as u8, 255, &sound(fields, &samples)), length)
}

fn long_sounds(random: &mut Random, lengths: &[usize]) -> Vec<Vec<u8>> {
    let mut inputs = Vec::new();
    for &length in lengths {
        for (variant, fields) in [(Variant::H, MONO), (Variant::L, STEREO), (Variant::LPlus, MONO)] {
            inputs.push(long_sound(random, variant, fields, length));
        }
    }
    inputs
}

/// A version 3 stream of L fragments that fills a length: twelve random ones, then zeros. The last holds one sample.
fn long_stream(random: &mut Random, length: usize) -> Vec<u8> {
    let fragments = (length - 16) / fragment_size(3, Variant::L);
    let mut bytes = header(3, Variant::L, 1, (fragments - 1) * frame_samples(3) + 1);
    for _ in 0..12 {
        bytes.extend(random_fragment(random, 3, Variant::L, frame_samples(3)));
    }
    grown(&bytes, length)
}

/// Each damage alone, other wrong bytes, other lengths, and the longest length that a header can ask for.
fn damaged_headers() -> Vec<Vec<u8>> {
    let good = case_3();
    let mut inputs = DAMAGES.map(|damage| damaged_by(damage, &good)).to_vec();
    inputs.extend([0, 1, 16, 49].map(|length| good[..length].to_vec()));
    let bytes = [(0, b's'), (4, 0), (4, 255), (5, 255), (6, 0), (7, 255), (17, 255), (49, 1)];
    inputs.extend(bytes.map(|(at, value)| changed(&good, at, value)));
    inputs.push(header(3, Variant::H, 2, u32::MAX as usize));
    inputs
}

fn accepted_headers() -> Vec<Vec<u8>> {
    let good = case_3();
    let mut inputs = vec![good.clone(), changed(&good, 17, 88)];
    for rate in [1, u32::MAX] {
        inputs.push([&good[..8], &rate.to_le_bytes(), &good[12..]].concat());
    }
    inputs
}

/// Every version, variant and channel count: up to one frame, and several with a short last one.
fn streams(random: &mut Random) -> Vec<Vec<u8>> {
    let mut inputs = Vec::new();
    for version in 1..=3 {
        let frame = frame_samples(version);
        for (variant, few) in VARIANTS.into_iter().zip([0, 1, frame]) {
            for channels in 1..=2 {
                for samples in [few, 2 * frame + 1 + random.below(frame - 1)] {
                    inputs.push(random_stream(random, version, variant, channels, samples));
                }
            }
        }
    }
    inputs
}
