//! Inputs as lines of text: one input a line, words separated by single spaces.

use crate::paper;
use crate::reference::sqv4::{State, Variant};
use std::str::FromStr;

pub const VARIANTS: [Variant; 3] = [Variant::H, Variant::L, Variant::LPlus];

/// The length of the output that is lent to a call. Where none is said the output is long enough.
pub type Room = Option<usize>;

/// Variants are bytes where a call for C takes them so.
pub enum Input {
    Encode { variant: u8, gain: u8, channels: u8, rate: u32, samples: Vec<i16>, room: Room },
    Inspect(Vec<u8>),
    Decode { stream: Vec<u8>, room: Room },
    Fragment { version: u8, variant: u8, state: State, count: usize, bytes: Vec<u8> },
    Step { version: u8, variant: Variant, state: State, code: u8 },
    Volume(Vec<i16>),
    Wav(Vec<u8>),
    Strict(Vec<u8>),
    Load { bytes: Vec<u8>, room: Room },
    Write { channels: u8, rate: u32, samples: Vec<i16>, room: Room },
    Converter(Vec<u8>),
    Inspector(Vec<u8>),
}

/// The inputs of a list, each with the number of its line. A line that begins with # is a comment.
pub fn read(list: &str) -> Result<Vec<(usize, Input)>, String> {
    let lines = (1..).zip(list.lines()).filter(|(_, line)| !line.starts_with('#'));
    lines.map(|(at, line)| Ok((at, parse(line).map_err(|message| bad_line(at, &message))?))).collect()
}

pub fn bad_line(at: usize, message: &str) -> String {
    format!("line {at}: {message}")
}

fn parse(line: &str) -> Result<Input, String> {
    let words: Vec<&str> = line.split(' ').collect();
    match words[..] {
        ["room", room, ref call @ ..] => {
            let room = Some(number(room)?);
            filling(call, room).unwrap_or_else(|| Err("no call with a room".to_string()))
        }
        ["inspect", bytes] => Ok(Input::Inspect(unhex(bytes)?)),
        ["fragment", version, variant, predictor, index, count, bytes] => Ok(Input::Fragment {
            version: number(version)?,
            variant: variant_byte(variant)?,
            state: state(predictor, index)?,
            count: number(count)?,
            bytes: unhex(bytes)?,
        }),
        ["step", version, variant, predictor, index, code] => {
            step(version, variant, state(predictor, index)?, number(code)?)
        }
        ["volume", ref samples @ ..] => Ok(Input::Volume(numbers(samples)?)),
        ["wav", bytes] => Ok(Input::Wav(unhex(bytes)?)),
        ["strict", bytes] => Ok(Input::Strict(unhex(bytes)?)),
        ["converter", bytes] => Ok(Input::Converter(unhex(bytes)?)),
        ["inspector", bytes] => Ok(Input::Inspector(unhex(bytes)?)),
        _ => filling(&words, None).unwrap_or_else(|| Err("not an input".to_string())),
    }
}

/// A call that fills an output of any length.
fn filling(words: &[&str], room: Room) -> Option<Result<Input, String>> {
    match words {
        ["encode", variant, gain, channels, rate, samples @ ..] => {
            Some(encode([variant, gain, channels, rate], samples, room))
        }
        ["decode", bytes] => Some(unhex(bytes).map(|stream| Input::Decode { stream, room })),
        ["load", bytes] => Some(unhex(bytes).map(|bytes| Input::Load { bytes, room })),
        ["write", channels, rate, samples @ ..] => Some(write(channels, rate, samples, room)),
        _ => None,
    }
}

fn encode([variant, gain, channels, rate]: [&str; 4], samples: &[&str], room: Room) -> Result<Input, String> {
    Ok(Input::Encode {
        variant: variant_byte(variant)?,
        gain: number(gain)?,
        channels: number(channels)?,
        rate: number(rate)?,
        samples: numbers(samples)?,
        room,
    })
}

fn write(channels: &str, rate: &str, samples: &[&str], room: Room) -> Result<Input, String> {
    Ok(Input::Write { channels: number(channels)?, rate: number(rate)?, samples: numbers(samples)?, room })
}

/// The reference's step checks nothing, so only what it takes without a panic is an input.
fn step(version: &str, name: &str, state: State, code: u8) -> Result<Input, String> {
    let (version, variant) = (version_number(version)?, variant(name)?);
    check_range(state)?;
    if code >= 1 << variant.bits() {
        return Err("not a code of this variant".to_string());
    }
    Ok(Input::Step { version, variant, state, code })
}

fn check_range(state: State) -> Result<(), String> {
    if paper::in_range(state) { Ok(()) } else { Err("state out of range".to_string()) }
}

fn state(predictor: &str, index: &str) -> Result<State, String> {
    Ok(State { predictor: number(predictor)?, index: number(index)? })
}

fn version_number(word: &str) -> Result<u8, String> {
    match number(word)? {
        version @ 1..=3 => Ok(version),
        _ => Err(format!("no version {word}")),
    }
}

fn variant(word: &str) -> Result<Variant, String> {
    VARIANTS.into_iter().find(|&variant| name(variant) == word).ok_or(format!("no variant {word}"))
}

/// A variant's byte: by its name, or as a number where it has none.
fn variant_byte(word: &str) -> Result<u8, String> {
    match word.parse() {
        Ok(byte @ 3..) => Ok(byte),
        _ => variant(word).map(|variant| variant as u8),
    }
}

pub fn name(variant: Variant) -> &'static str {
    match variant {
        Variant::H => "H",
        Variant::L => "L",
        Variant::LPlus => "L+",
    }
}

fn number<T: FromStr>(word: &str) -> Result<T, String> {
    word.parse().map_err(|_| format!("not a number that fits here: {word:?}"))
}

fn numbers(words: &[&str]) -> Result<Vec<i16>, String> {
    words.iter().map(|word| number(word)).collect()
}

/// Bytes as `hex` or `short_hex` writes them.
fn unhex(word: &str) -> Result<Vec<u8>, String> {
    let Some((front, length)) = word.split_once('*') else { return digits(word) };
    let (mut bytes, length) = (digits(front)?, number(length)?);
    if length < bytes.len() {
        return Err(format!("more than {length} bytes before the *"));
    }
    bytes.resize(length, 0);
    Ok(bytes)
}

fn digits(word: &str) -> Result<Vec<u8>, String> {
    let fault = || format!("not hex digits, two a byte: {word:?}");
    if word == "-" {
        return Ok(Vec::new());
    }
    if word.is_empty() || word.len() % 2 != 0 || !word.bytes().all(|digit| digit.is_ascii_hexdigit()) {
        return Err(fault());
    }
    (0..word.len()).step_by(2).map(|at| u8::from_str_radix(&word[at..at + 2], 16).map_err(|_| fault())).collect()
}

/// Bytes as hex digits; no bytes are written -.
pub fn hex(bytes: &[u8]) -> String {
    if bytes.is_empty() { "-".to_string() } else { bytes.iter().map(|byte| format!("{byte:02x}")).collect() }
}

/// The same, but for more than 16 zeros at the end stands * and the length of all.
pub fn short_hex(bytes: &[u8]) -> String {
    let front = without_last_zeros(bytes);
    if bytes.len() - front.len() > 16 { format!("{}*{}", hex(front), bytes.len()) } else { hex(bytes) }
}

pub fn without_last_zeros(bytes: &[u8]) -> &[u8] {
    &bytes[..bytes.iter().rposition(|&byte| byte != 0).map_or(0, |last| last + 1)]
}

pub fn sample_bytes(samples: &[i16]) -> Vec<u8> {
    samples.iter().flat_map(|sample| sample.to_le_bytes()).collect()
}

/// Numbers as words, each after a space.
pub fn words<T: ToString>(numbers: &[T]) -> String {
    numbers.iter().map(|number| format!(" {}", number.to_string())).collect()
}

/// An encode line.
pub fn encode_line(variant: Variant, gain: u8, channels: u8, rate: u32, samples: &[i16]) -> String {
    format!("encode {} {gain} {channels} {rate}{}\n", name(variant), words(samples))
}
