//! The answer to an input: the reference's, and the scope paper's where the reference has none. Refusals have the numbers of the
//! scope paper's table.

use crate::convert;
use crate::input::{Input, hex, sample_bytes, words};
use crate::lists;
use crate::paper;
use crate::print;
use crate::reference::sqv4::{self, Error, State, Variant};
use crate::reference::wav::{self, PcmWave, WaveError};

pub enum Answer {
    Stream(Vec<u8>),
    Header(Header),
    Decoded(Header, Vec<i16>),
    Played(State, Vec<i16>),
    Stepped(State),
    Volume(u8),
    Wave(Wave),
    Loaded(Vec<i16>),
    File(Vec<u8>),
    Printed(Vec<u8>),
}

pub struct Header {
    pub version: u8,
    pub variant: u8,
    pub channels: u8,
    pub rate: u32,
    pub samples: usize,
}

/// What a WAV file holds, and where its sample bytes lie.
pub struct Wave {
    pub sound: PcmWave,
    pub start: usize,
    pub size: usize,
}

#[derive(Clone)]
pub struct Refusal {
    pub number: u8,
    pub values: Vec<usize>,
}

impl Refusal {
    pub fn line(&self) -> String {
        format!("refused {}{}\n", self.number, words(&self.values))
    }
}

pub fn answer(input: &Input) -> Result<Answer, Refusal> {
    match input {
        Input::Encode { variant, gain, channels, rate, samples, room } => {
            let stream = encoded(*variant, *gain, *channels, *rate, samples)?;
            paper::check_room(*room, stream.len())?;
            Ok(Answer::Stream(stream))
        }
        Input::Inspect(bytes) => Ok(Answer::Header(inspect(bytes)?)),
        Input::Decode { stream, room } => {
            let (header, samples) = (inspect(stream)?, sqv4::decode(stream)?.samples);
            paper::check_room(*room, samples.len())?;
            Ok(Answer::Decoded(header, samples))
        }
        Input::Fragment { version, variant, state, count, bytes } => {
            let variant = Variant::try_from(*variant)?;
            paper::check_fragment(*version, variant, *state, bytes.len(), *count)?;
            Ok(play(*version, variant, *state, *count, bytes))
        }
        Input::Step { version, variant, state, code } => {
            let mut state = *state;
            sqv4::decode_code(*version, *variant, &mut state, *code);
            Ok(Answer::Stepped(state))
        }
        Input::Volume(samples) => Ok(Answer::Volume(sqv4::fragment_volume(samples))),
        Input::Wav(bytes) => Ok(Answer::Wave(read(bytes)?)),
        Input::Strict(bytes) => Ok(Answer::Wave(read_strict(bytes)?)),
        Input::Load { bytes, room } => {
            let samples = loaded(bytes);
            paper::check_room(*room, samples.len())?;
            Ok(Answer::Loaded(samples))
        }
        Input::Write { channels, rate, samples, room } => {
            let file = convert::written(*channels, *rate, samples)?;
            paper::check_room(*room, file.len())?;
            Ok(Answer::File(file))
        }
        Input::Converter(bytes) => Ok(Answer::Printed(print::converter(bytes))),
        Input::Inspector(bytes) => Ok(Answer::Printed(print::inspector(bytes))),
    }
}

/// A variant's byte is read first.
pub fn encoded(variant: u8, gain: u8, channels: u8, rate: u32, samples: &[i16]) -> Result<Vec<u8>, Refusal> {
    let variant = Variant::try_from(variant)?;
    Ok(sqv4::encode_interleaved(samples, channels, rate, variant, gain)?)
}

pub fn inspect(bytes: &[u8]) -> Result<Header, Refusal> {
    let header = sqv4::inspect(bytes)?;
    Ok(Header {
        version: header.version,
        variant: header.variant as u8,
        channels: header.channels,
        rate: header.sample_rate,
        samples: header.samples_per_channel,
    })
}

/// Version 3 has no state to carry: the given one is handed back.
fn play(version: u8, variant: Variant, mut state: State, count: usize, bytes: &[u8]) -> Answer {
    let mut samples = vec![0; count];
    if version == 3 {
        sqv4::decode_fragment(variant, bytes, &mut samples);
    } else {
        sqv4::decode_legacy_fragment(version, variant, &mut state, bytes, &mut samples);
    }
    Answer::Played(state, samples)
}

/// The reference gives the samples of a WAV file but not their place. What lies there must be the samples that it gives.
pub fn read(file: &[u8]) -> Result<Wave, Refusal> {
    let sound = wav::read_pcm16_wave(file)?;
    let paper::Layout { data: start, data_size: size, .. } = paper::layout(file);
    assert_eq!(file[start..start + size], sample_bytes(&sound.samples));
    Ok(Wave { sound, start, size })
}

pub fn read_strict(file: &[u8]) -> Result<Wave, Refusal> {
    let wave = read(file)?;
    paper::check_strict(file)?;
    Ok(wave)
}

/// Sample bytes as the reference reads them in a mono file. A last odd byte, which no such file has, is no sample.
pub fn loaded(bytes: &[u8]) -> Vec<i16> {
    let data = lists::chunk("data", &bytes[..bytes.len() / 2 * 2]);
    let file = lists::wave(&[&lists::format_chunk(lists::MONO), &data]);
    wav::read_pcm16_wave(&file).expect("a sound file").samples
}

/// An answer as a line of text.
pub fn line(input: &Input) -> String {
    match answer(input) {
        Ok(answer) => {
            let verb = if let Answer::Printed(_) = answer { "prints" } else { "result" };
            format!("{verb}{}\n", answer_words(&answer))
        }
        Err(refusal) => refusal.line(),
    }
}

fn answer_words(answer: &Answer) -> String {
    match answer {
        Answer::Stream(bytes) | Answer::File(bytes) | Answer::Printed(bytes) => format!(" {}", hex(bytes)),
        Answer::Header(Header { version, variant, channels, rate, samples }) => {
            format!(" {version} {variant} {channels} {rate} {samples}")
        }
        Answer::Decoded(_, samples) | Answer::Loaded(samples) => words(samples),
        Answer::Played(state, samples) => format!(" {} {}{}", state.predictor, state.index, words(samples)),
        Answer::Stepped(state) => format!(" {} {}", state.predictor, state.index),
        Answer::Volume(volume) => format!(" {volume}"),
        Answer::Wave(Wave { sound, start, size }) => {
            format!(" {} {} {start} {size}{}", sound.channels, sound.sample_rate, words(&sound.samples))
        }
    }
}

/// The reference's texts and the scope paper's numbers: those of sqv4.rs, of which some go on with values, of wav.rs,
/// and of the writer. SizeOverflow and the other texts on sizes have none: counts are 64 bits wide.
const TEXTS: [(&str, u8); 30] = [
    ("SQV4 error: InvalidChannels", 1),
    ("SQV4 error: ZeroSampleRate", 2),
    ("SQV4 error: MisalignedInterleavedSamples", 3),
    ("SQV4 error: TooManySamples", 4),
    ("SQV4 error: TruncatedHeader", 5),
    ("SQV4 error: InvalidMagic", 6),
    ("SQV4 error: UnsupportedVersion", 7),
    ("SQV4 error: InvalidVariant", 8),
    ("SQV4 error: InvalidReservedByte", 9),
    ("SQV4 error: InvalidFileLength", 10),
    ("SQV4 error: InvalidStepIndex", 11),
    ("SQV4 error: NonZeroPadding", 12),
    ("input is not a RIFF/WAVE file", 20),
    ("truncated RIFF/WAVE file", 21),
    ("truncated WAVE chunk header", 22),
    ("WAVE chunk extends past RIFF boundary", 23),
    ("invalid or duplicate WAVE fmt chunk", 24),
    ("duplicate WAVE data chunk", 25),
    ("WAVE fmt chunk is missing", 26),
    ("input must use uncompressed 16-bit PCM WAV", 27),
    ("input must be mono or stereo", 28),
    ("WAVE sample rate must be nonzero", 29),
    ("WAVE byte rate overflow", 30),
    ("inconsistent WAVE byte rate or block alignment", 31),
    ("WAVE data chunk is missing", 32),
    ("WAVE data ends in a partial PCM frame", 33),
    ("preview channel count must be mono or stereo", 34),
    ("preview WAV exceeds RIFF size limit", 35),
    ("preview RIFF size overflow", 36),
    ("preview WAV byte rate overflow", 37),
];

/// The number of what the reference says. Values stand behind a text in brackets.
pub fn number(text: &str) -> u8 {
    let plain = text.split(['(', '{']).next().unwrap_or(text).trim_end();
    let known = TEXTS.iter().find(|(known, _)| *known == plain);
    known.unwrap_or_else(|| panic!("no number for the text {text:?}")).1
}

impl From<Error> for Refusal {
    fn from(error: Error) -> Self {
        let number = number(&error.to_string());
        let values = match error {
            Error::InvalidChannels(byte)
            | Error::UnsupportedVersion(byte)
            | Error::InvalidVariant(byte)
            | Error::InvalidReservedByte(byte)
            | Error::InvalidStepIndex(byte) => vec![byte as usize],
            Error::InvalidFileLength { expected, actual } => vec![expected, actual],
            _ => vec![],
        };
        Refusal { number, values }
    }
}

/// A WAV refusal is known by its text alone: the field that holds it is private.
impl From<WaveError> for Refusal {
    fn from(error: WaveError) -> Self {
        Refusal { number: number(&error.to_string()), values: vec![] }
    }
}
