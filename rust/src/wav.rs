//! 16-bit WAV files, read and written.
use crate::raw::{self, WaveAnswer};
pub use crate::refusal::Refusal as WaveError;

/// Interleaved signed 16-bit PCM samples, with one or two channels.
#[derive(Debug, Clone, PartialEq, Eq)]
pub struct PcmWave {
    /// 1 or 2.
    pub channels: u8,
    /// Samples a second of each channel.
    pub sample_rate: u32,
    /// Left before right.
    pub samples: Vec<i16>,
}

/// What a WAV file says of its sound.
#[derive(Debug, Clone, Copy, PartialEq, Eq)]
#[allow(missing_docs)]
pub struct WaveInfo {
    /// 1 or 2.
    pub channels: u8,
    pub sample_rate: u32,
    pub samples_per_channel: usize,
}

fn taken(answer: WaveAnswer) -> Result<WaveAnswer, WaveError> {
    match answer.refusal {
        0 => Ok(answer),
        number => Err(WaveError::named(number, 0, 0)),
    }
}

fn loaded(data: &[u8], answer: WaveAnswer) -> Result<PcmWave, WaveError> {
    let answer = taken(answer)?;
    let bytes = &data[answer.start..answer.start + answer.size];
    let mut samples = vec![0; answer.size / 2];
    raw::load_samples(bytes, &mut samples);
    Ok(PcmWave { channels: answer.channels as u8, sample_rate: answer.rate, samples })
}

/// Reads a 16-bit mono or stereo WAV file; it may have other chunks, and bytes after its RIFF end.
pub fn read_pcm16_wave(data: &[u8]) -> Result<PcmWave, WaveError> {
    loaded(data, raw::read_wave(data))
}

/// The same, where the fmt chunk has 16 or 18 bytes (the last two of 18 are ignored) and stands before the data, and nothing stands
/// after the RIFF end. Other chunks may stand anywhere.
pub fn read_strict_pcm16_wave(data: &[u8]) -> Result<PcmWave, WaveError> {
    loaded(data, raw::read_strict_wave(data))
}

/// What [`read_strict_pcm16_wave`] says of a file, without its samples; it refuses the same. Nothing is allocated.
pub fn strict_info(data: &[u8]) -> Result<WaveInfo, WaveError> {
    let WaveAnswer { channels, rate, size, .. } = taken(raw::read_strict_wave(data))?;
    let samples_per_channel = size / 2 / usize::from(channels);
    Ok(WaveInfo { channels: channels as u8, sample_rate: rate, samples_per_channel })
}

/// A WAV file of interleaved samples.
pub fn write_pcm16_wave(channels: u8, sample_rate: u32, samples: &[i16]) -> Result<Vec<u8>, WaveError> {
    let asked = raw::write_wave(channels, sample_rate, samples, &mut []);
    if asked.refusal != 13 {
        return Err(WaveError::named(asked.refusal, asked.first, asked.second));
    }
    let mut file = vec![0; asked.first];
    raw::write_wave(channels, sample_rate, samples, &mut file);
    Ok(file)
}
