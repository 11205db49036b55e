//! A list's inputs with their answers, as bytes: the data of crates/replay. README.md has the layout.

use crate::answer::{self, Answer, Header, Refusal, Wave};
use crate::input::{Input, Room, bad_line, sample_bytes, without_last_zeros};
use crate::reference::sqv4::State;

/// The bytes that a question and an answer may have in crates/replay, and the places of its arrays for samples and bytes.
const MOST_QUESTION: usize = 65538;
const MOST_ANSWER: usize = 335488;
const MOST_SAMPLES: usize = 1024;
const MOST_BYTES: usize = 2092;

/// What is stored of a question and its answer.
type Records = fn(&[u8], &[u8]) -> Vec<u8>;

pub fn file(inputs: &[(usize, Input)], records: Records) -> Result<Vec<u8>, String> {
    let each = inputs.iter().map(|(at, input)| asked(input, records).map_err(|message| bad_line(*at, message)));
    Ok(each.collect::<Result<Vec<_>, _>>()?.concat())
}

fn asked(input: &Input, records: Records) -> Result<Vec<u8>, &'static str> {
    let (question, answer) = (question(input)?, said(input)?);
    if question.len() > MOST_QUESTION || answer.len() > MOST_ANSWER {
        return Err("too long: a record's question has at most 65,538 bytes, its answer 335,488");
    }
    Ok(records(&question, &answer))
}

pub fn right(question: &[u8], answer: &[u8]) -> Vec<u8> {
    let (asked, said) = (without_last_zeros(question), without_last_zeros(answer));
    let sizes = [question.len(), asked.len(), answer.len(), said.len()].map(|size| (size as u32).to_le_bytes());
    [&sizes.concat(), asked, said].concat()
}

/// The question with wrong answers: each byte changed in turn, the last one left out, one more.
pub fn wrong(question: &[u8], answer: &[u8]) -> Vec<u8> {
    let mut answers: Vec<Vec<u8>> = (0..answer.len()).map(|_| answer.to_vec()).collect();
    answers.iter_mut().enumerate().for_each(|(at, answer)| answer[at] ^= 1);
    answers.push(answer[..answer.len() - 1].to_vec());
    answers.push([answer, &[0]].concat());
    answers.iter().flat_map(|answer| right(question, answer)).collect()
}

fn question(input: &Input) -> Result<Vec<u8>, &'static str> {
    Ok(match input {
        Input::Encode { variant, gain, channels, rate, samples, room } => {
            [&[1, *variant, *gain][..], &sound(*channels, *rate, *room, samples)?].concat()
        }
        Input::Inspect(stream) => [&[2], &stream[..]].concat(),
        Input::Decode { stream, room } => [&[3], &room_bytes(*room, MOST_SAMPLES)?[..], stream].concat(),
        Input::Wav(file) => [&[4], &file[..]].concat(),
        Input::Strict(file) => [&[9], &file[..]].concat(),
        Input::Load { bytes, room } => [&[10], &room_bytes(*room, MOST_SAMPLES)?[..], bytes].concat(),
        Input::Fragment { version, variant, state, count, bytes } => {
            let count = u8::try_from(*count).map_err(|_| "a record's fragment has at most 255 samples")?;
            [&[7, *version, *variant, count], &state_bytes(state)[..], bytes].concat()
        }
        Input::Write { channels, rate, samples, room } => {
            [&[8][..], &sound(*channels, *rate, *room, samples)?].concat()
        }
        Input::Converter(bytes) => [&[5], &bytes[..]].concat(),
        Input::Inspector(bytes) => [&[6], &bytes[..]].concat(),
        Input::Step { .. } | Input::Volume(_) => return Err("no record of this kind"),
    })
}

/// What the encoder's question and the writer's have in common.
fn sound(channels: u8, rate: u32, room: Room, samples: &[i16]) -> Result<Vec<u8>, &'static str> {
    if samples.len() > MOST_SAMPLES {
        return Err("a record's question has at most 1,024 samples");
    }
    let room = room_bytes(room, MOST_BYTES)?;
    Ok([&[channels][..], &rate.to_le_bytes(), &room, &sample_bytes(samples)].concat())
}

/// Without a room the call gets all the places that there are.
fn room_bytes(room: Room, most: usize) -> Result<[u8; 4], &'static str> {
    match room.unwrap_or(most) {
        room if room <= most => Ok((room as u32).to_le_bytes()),
        _ => Err("a record has room for at most 1,024 samples or 2,092 bytes"),
    }
}

/// The numbers of the call's answer in the order of its struct, and what it fills.
fn said(input: &Input) -> Result<Vec<u8>, &'static str> {
    let answer = answer::answer(input);
    let fits = match &answer {
        Ok(Answer::Stream(bytes) | Answer::File(bytes)) => bytes.len() <= MOST_BYTES,
        Ok(Answer::Decoded(_, samples) | Answer::Loaded(samples)) => samples.len() <= MOST_SAMPLES,
        _ => true,
    };
    match answer {
        _ if !fits => Err("a record's result has at most 1,024 samples or 2,092 bytes"),
        Ok(answer) => Ok(result(&answer)),
        Err(refusal) => Ok(refused(input, &refusal)),
    }
}

fn result(answer: &Answer) -> Vec<u8> {
    match answer {
        Answer::Stream(bytes) | Answer::File(bytes) => [numbers(&[0, bytes.len(), 0]), bytes.clone()].concat(),
        Answer::Loaded(samples) => [numbers(&[0, samples.len(), 0]), sample_bytes(samples)].concat(),
        Answer::Header(header) => [numbers(&[0, 0, 0]), header_bytes(header)].concat(),
        Answer::Decoded(header, samples) => {
            [numbers(&[0, 0, 0]), header_bytes(header), sample_bytes(samples)].concat()
        }
        Answer::Wave(Wave { sound, start, size }) => {
            let channels = (sound.channels as u16).to_le_bytes().to_vec();
            let rest = numbers(&[sound.sample_rate as usize, *start, *size]);
            [numbers(&[0]), channels, rest, sample_bytes(&sound.samples)].concat()
        }
        Answer::Played(state, samples) => {
            [numbers(&[0, samples.len(), 0]), state_bytes(state), sample_bytes(samples)].concat()
        }
        Answer::Printed(bytes) => bytes.clone(),
        Answer::Stepped(_) | Answer::Volume(_) => unreachable!("no question of this kind"),
    }
}

/// The number, the two returned ones, and zeros for the rest of the struct; the fragment decoder has the state as it was, and the WAV
/// reader no returned numbers.
fn refused(input: &Input, refusal: &Refusal) -> Vec<u8> {
    let value = |at: usize| refusal.values.get(at).copied().unwrap_or(0);
    let number = refusal.number as usize;
    let all = numbers(&[number, value(0), value(1)]);
    match input {
        Input::Wav(_) | Input::Strict(_) => [numbers(&[number]), vec![0; 26]].concat(),
        Input::Fragment { state, .. } => [all, state_bytes(state)].concat(),
        Input::Inspect(_) | Input::Decode { .. } => [all, vec![0; 19]].concat(),
        _ => all,
    }
}

fn header_bytes(header: &Header) -> Vec<u8> {
    let Header { version, variant, channels, rate, samples } = *header;
    [vec![version, variant, channels], numbers(&[rate as usize, samples])].concat()
}

/// A decoder's state: 1 where the predictor is negative and else 0, its magnitude and the index in 8 bytes each.
fn state_bytes(state: &State) -> Vec<u8> {
    let magnitude = state.predictor.unsigned_abs() as usize;
    [vec![(state.predictor < 0) as u8], numbers(&[magnitude, state.index])].concat()
}

/// Numbers in 8 bytes each.
fn numbers(values: &[usize]) -> Vec<u8> {
    values.iter().flat_map(|value| value.to_le_bytes()).collect()
}
