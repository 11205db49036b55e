//! What the two programs must print for their standard input: the reference's answers, in the scope paper's layout.

use crate::answer::Refusal;
use crate::input::name;
use crate::reference::sqv4::{self, Variant};
use crate::reference::wav;

/// The bytes that a program takes at most.
const MOST: usize = 65536;

const WRONG_LENGTH: Refusal = Refusal { number: 38, values: Vec::new() };

pub fn converter(input: &[u8]) -> Vec<u8> {
    converted(input).unwrap_or_else(|refusal| refusal.line().into_bytes())
}

pub fn inspector(input: &[u8]) -> Vec<u8> {
    report(input).unwrap_or_else(|refusal| refusal.line()).into_bytes()
}

fn converted(input: &[u8]) -> Result<Vec<u8>, Refusal> {
    let [variant, gain, file @ ..] = input else { return Err(WRONG_LENGTH) };
    if input.len() > MOST {
        return Err(WRONG_LENGTH);
    }
    let variant = Variant::try_from(*variant)?;
    let wave = wav::read_pcm16_wave(file)?;
    Ok(sqv4::encode_interleaved(&wave.samples, wave.channels, wave.sample_rate, variant, *gain)?)
}

fn report(stream: &[u8]) -> Result<String, Refusal> {
    if stream.len() > MOST {
        return Err(WRONG_LENGTH);
    }
    let header = sqv4::inspect(stream)?;
    let sqv4::Header { version, channels, sample_rate: rate, samples_per_channel: samples, .. } = header;
    let variant = name(header.variant);
    let mut text = format!("version {version} variant {variant} channels {channels} rate {rate} samples {samples}\n");
    for (at, fragment) in stream[16..].chunks_exact(header.frame_size).enumerate() {
        let (frame, channel) = (at / channels as usize, at % channels as usize);
        let count = (samples - frame * header.frame_samples).min(header.frame_samples);
        let index = if version == 3 { fragment[1].to_string() } else { "-".to_string() };
        text += &format!("{frame} {channel} {count} {} {index}\n", fragment[0]);
    }
    Ok(text)
}
