//! SQV4 streams: encoded to version 3, inspected, and decoded from versions 1, 2 and 3.
use std::fmt;
use std::io::{self, Write};

pub use crate::raw::State;
use crate::raw::{self, HeaderAnswer};
pub use crate::refusal::Refusal as Error;

const HEADER_SIZE: usize = 16;

/// How fragments are coded: with 4 bits a sample (H), or with 3 (L, L+).
#[derive(Debug, Clone, Copy, PartialEq, Eq, Hash)]
#[repr(u8)]
#[allow(missing_docs)]
pub enum Variant {
    H = 0,
    L = 1,
    LPlus = 2,
}

impl TryFrom<u8> for Variant {
    type Error = Error;

    fn try_from(byte: u8) -> Result<Self, Error> {
        match byte {
            0 => Ok(Variant::H),
            1 => Ok(Variant::L),
            2 => Ok(Variant::LPlus),
            _ => Err(Error::InvalidVariant(byte)),
        }
    }
}

impl fmt::Display for Variant {
    fn fmt(&self, f: &mut fmt::Formatter<'_>) -> fmt::Result {
        f.write_str(match self {
            Variant::H => "H",
            Variant::L => "L",
            Variant::LPlus => "L+",
        })
    }
}

/// A decoded stream.
#[derive(Debug, Clone, PartialEq, Eq)]
#[allow(missing_docs)]
pub struct DecodedAudio {
    pub variant: Variant,
    pub sample_rate: u32,
    pub channels: u8,
    /// Interleaved signed PCM samples.
    pub samples: Vec<i16>,
}

/// The header of a stream that is sound throughout, and what follows from it.
#[derive(Debug, Clone, Copy, PartialEq, Eq)]
#[allow(missing_docs)]
pub struct Header {
    pub version: u8,
    pub variant: Variant,
    pub channels: u8,
    pub sample_rate: u32,
    pub samples_per_channel: usize,
    /// Samples of a whole fragment: 63 in version 3, 64 in versions 1 and 2.
    pub frame_samples: usize,
    pub frame_count: usize,
    /// Bytes of a fragment.
    pub frame_size: usize,
}

/// A fragment of a stream, with its place there.
#[derive(Debug, Clone, Copy, PartialEq, Eq)]
#[allow(missing_docs)]
pub struct Fragment<'a> {
    pub frame: usize,
    pub channel: usize,
    pub samples: usize,
    pub bytes: &'a [u8],
}

impl Header {
    fn of(version: u8, variant: Variant, channels: u8, sample_rate: u32, samples: u32) -> Header {
        Header {
            version,
            variant,
            channels,
            sample_rate,
            samples_per_channel: samples as usize,
            frame_samples: if version < 3 { 64 } else { 63 },
            frame_count: raw::frame_count(version, samples).first,
            frame_size: raw::fragment_size(version, variant as u8).first,
        }
    }

    /// The fragments of this header's stream, in file order: frame by frame, left before right.
    pub fn fragments<'a>(&self, stream: &'a [u8]) -> impl Iterator<Item = Fragment<'a>> {
        let Header { channels, samples_per_channel, frame_samples, frame_size, .. } = *self;
        let fragments = stream.get(HEADER_SIZE..).unwrap_or_default().chunks_exact(frame_size.max(1));
        fragments.enumerate().map(move |(place, bytes)| {
            let (frame, channel) = (place / channels as usize, place % channels as usize);
            let samples = samples_per_channel.saturating_sub(frame * frame_samples).min(frame_samples);
            Fragment { frame, channel, samples, bytes }
        })
    }
}

/// A result, or the refusal that the three numbers of an answer name.
fn result(answer: &HeaderAnswer) -> Result<(), Error> {
    match answer.refusal {
        0 => Ok(()),
        number => Err(Error::named(number, answer.first, answer.second)),
    }
}

/// Encodes interleaved samples as a stream of version 3. A `volume` of 255 leaves the samples as they are, and 0 silences them.
pub fn encode_interleaved(
    pcm: &[i16],
    channels: u8,
    sample_rate: u32,
    variant: Variant,
    volume: u8,
) -> Result<Vec<u8>, Error> {
    let asked = raw::encode(pcm, channels, sample_rate, variant as u8, volume, &mut []);
    if asked.refusal != 13 {
        return Err(Error::named(asked.refusal, asked.first, asked.second));
    }
    let mut stream = vec![0; asked.first];
    raw::encode(pcm, channels, sample_rate, variant as u8, volume, &mut stream);
    Ok(stream)
}

/// The header of a stream whose header, length and every fragment are sound.
pub fn inspect(stream: &[u8]) -> Result<Header, Error> {
    let answer = raw::inspect(stream);
    result(&answer)?;
    Ok(Header::of(answer.version, Variant::try_from(answer.variant)?, answer.channels, answer.rate, answer.samples))
}

/// Decodes a whole stream of version 1, 2 or 3.
pub fn decode(stream: &[u8]) -> Result<DecodedAudio, Error> {
    let asked = raw::decode(stream, &mut []);
    let mut samples = vec![0; if asked.refusal == 13 { asked.first } else { 0 }];
    let answer = raw::decode(stream, &mut samples);
    result(&answer)?;
    let variant = Variant::try_from(answer.variant)?;
    Ok(DecodedAudio { variant, sample_rate: answer.rate, channels: answer.channels, samples })
}

/// Where inspection finds a stream damaged, for refusals 11 and 12: the frame and the channel, both from 0. Each fragment is asked about
/// by itself, as a stream of its own with the samples that it has here.
pub fn damage(stream: &[u8]) -> Option<(usize, usize)> {
    match inspect(stream) {
        Err(Error::InvalidStepIndex(_) | Error::NonZeroPadding) => {}
        _ => return None,
    }
    let samples = u32::from_le_bytes(stream[12..16].try_into().ok()?);
    let header = Header::of(stream[4], Variant::try_from(stream[5]).ok()?, stream[6], 1, samples);
    let mut alone = stream[..HEADER_SIZE].to_vec();
    alone[6] = 1;
    let found = header.fragments(stream).find(|fragment| {
        alone.truncate(HEADER_SIZE);
        alone[12..16].copy_from_slice(&(fragment.samples as u32).to_le_bytes());
        alone.extend_from_slice(fragment.bytes);
        inspect(&alone).is_err()
    });
    found.map(|fragment| (fragment.frame, fragment.channel))
}

/// Writes the report of 01's inspector: a line of the header, then one for each fragment with its frame, channel, sample count, volume
/// and index (- in versions 1 and 2). The stream is one of which `inspect` gave this header.
pub fn write_report(header: &Header, stream: &[u8], out: &mut impl Write) -> io::Result<()> {
    let Header { version, variant, channels, sample_rate, samples_per_channel, .. } = header;
    writeln!(
        out,
        "version {version} variant {variant} channels {channels} rate {sample_rate} samples {samples_per_channel}"
    )?;
    for Fragment { frame, channel, samples, bytes } in header.fragments(stream) {
        write!(out, "{frame} {channel} {samples} {} ", bytes[0])?;
        match version {
            1 | 2 => writeln!(out, "-")?,
            _ => writeln!(out, "{}", bytes[1])?,
        }
    }
    Ok(())
}

/// Decodes the fragments of one channel, and keeps that channel's state from one to the next. Each channel needs a player of its own.
#[derive(Debug, Clone, Copy, PartialEq, Eq)]
pub struct FragmentPlayer {
    version: u8,
    variant: Variant,
    state: State,
}

impl FragmentPlayer {
    /// A player before the channel's first fragment.
    pub fn new(version: u8, variant: Variant) -> FragmentPlayer {
        FragmentPlayer::at(version, variant, State::default())
    }

    /// A player at a state that another had.
    pub fn at(version: u8, variant: Variant, state: State) -> FragmentPlayer {
        FragmentPlayer { version, variant, state }
    }

    /// Decodes the first `out.len()` samples of a fragment. A refusal changes neither `out` nor the state.
    pub fn play(&mut self, fragment: &[u8], out: &mut [i16]) -> Result<(), Error> {
        let answer = raw::decode_fragment_lent(self.version, self.variant as u8, &mut self.state, fragment, out);
        match answer.refusal {
            0 => Ok(()),
            number => Err(Error::named(number, answer.first, answer.second)),
        }
    }

    /// The channel's state, from which its next fragment goes on in versions 1 and 2.
    pub fn state(&self) -> State {
        self.state
    }
}
