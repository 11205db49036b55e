//! The calls of the C interface, each asked and held against what it must answer: what the reference answers, or the scope
//! paper where the reference has no such call or no such refusal.

use crate::answer::{self, Answer, Header, Refusal, Wave};
use crate::convert;
use crate::input::{Input, hex, name, words};
use crate::lists::Random;
use crate::memory::{Placement, Places, lent};
use crate::paper;
use crate::postlapse as ours;
use crate::reference::sqv4::{self, State, Variant};
use crate::tally::Tally;

/// The numbers of an answer in the order of its struct, the refusal first, and zeros behind them.
pub type Numbers = [i64; 8];

pub fn numbers(values: &[usize]) -> Numbers {
    let mut all = [0; 8];
    all.iter_mut().zip(values).for_each(|(place, value)| *place = *value as i64);
    all
}

pub fn refused(refusal: &Refusal) -> Numbers {
    numbers(&[&[refusal.number as usize], &refusal.values[..]].concat())
}

pub fn answered(answer: ours::Answer) -> Numbers {
    numbers(&[answer.refusal, answer.first, answer.second])
}

pub fn header_answered(answer: ours::HeaderAnswer) -> Numbers {
    let ours::HeaderAnswer { refusal, first, second, version, variant, channels, rate, samples } = answer;
    let bytes = [version, variant, channels].map(usize::from);
    numbers(&[refusal, first, second, bytes[0], bytes[1], bytes[2], rate as usize, samples as usize])
}

pub fn fragment_answered(answer: ours::FragmentAnswer) -> Numbers {
    let ours::FragmentAnswer { refusal, first, predictor, index } = answer;
    let mut all = numbers(&[refusal, first]);
    all[4..6].copy_from_slice(&[predictor as i64, index as i64]);
    all
}

pub fn wave_answered(answer: ours::WaveAnswer) -> Numbers {
    let ours::WaveAnswer { refusal, channels, rate, start, size } = answer;
    numbers(&[refusal, channels as usize, rate as usize, start, size])
}

// ---- outputs

/// An element of an output, and what stands in it before a call.
trait Place: Copy + PartialEq {
    fn before(at: usize) -> Self;
}

impl Place for u8 {
    fn before(at: usize) -> u8 {
        (at * 167 + 91) as u8
    }
}

impl Place for i16 {
    fn before(at: usize) -> i16 {
        (at * 40503 + 12345) as i16
    }
}

/// So many places before and after each output, which no call may touch. None stand where a guard page is.
const AROUND: usize = 9;

/// An output of a call and the places around it.
struct Output<T> {
    places: Places<T>,
    front: usize,
    room: usize,
}

impl<T: Place> Output<T> {
    fn new(placement: Placement, room: usize) -> Self {
        let front = if placement == Placement::GuardBefore { 0 } else { AROUND };
        let behind = if placement == Placement::GuardBehind { 0 } else { AROUND };
        let places = Places::of(placement, (0..front + room + behind).map(T::before).collect());
        Output { places, front, room }
    }

    fn out(&mut self) -> &mut [T] {
        &mut self.places[self.front..self.front + self.room]
    }

    /// The values are at the front of the output, and every other place is as it was.
    fn holds(&self, values: &[T]) -> bool {
        let end = self.front + values.len();
        let untouched = |at: usize| self.places[at] == T::before(at);
        self.places[self.front..end] == *values
            && (0..self.front).all(untouched)
            && (end..self.places.len()).all(untouched)
    }
}

/// What a call gives in a room of so many places.
fn in_room<T>(result: &Result<Vec<T>, Refusal>, room: usize) -> Result<&[T], Refusal> {
    let values = result.as_ref().map_err(Refusal::clone)?;
    paper::check_room(Some(room), values.len())?;
    Ok(values)
}

/// Rooms to ask a result in: one that suffices, and one that does not where there is one. A refusal is asked in any.
fn rooms<T>(random: &mut Random, result: &Result<Vec<T>, Refusal>) -> Vec<usize> {
    match result.as_ref().map_or(0, Vec::len) {
        0 => vec![random.below(80)],
        length => vec![
            length + [0, 1, random.below(70)][random.below(3)],
            [0, length - 1, random.below(length)][random.below(3)],
        ],
    }
}

/// Makes a call with an output of so many places, holds its answer and the output against what they must be, and
/// says whether they are that. A refused call may not write.
fn judge<T: Place>(
    tally: &mut Tally,
    call: &'static str,
    (expected, values): (Numbers, &[T]),
    room: usize,
    ask: impl FnOnce(&mut [T]) -> Numbers,
    line: impl Fn() -> String,
) -> bool {
    let refusal = expected[0] as usize;
    if !tally.begin(call, refusal, &line) {
        return false;
    }
    let mut output = Output::new(tally.placement(), room);
    if refusal != 0 {
        output.places.forbid_writing();
    }
    let answer = ask(output.out());
    let held = output.holds(values);
    let same = held && answer == expected;
    tally.count(call, refusal, same, || {
        let output = if held { "as expected" } else { "NOT as expected" };
        (format!("{call}, room {room}: answered {answer:?}, expected {expected:?}; output {output}"), line())
    });
    same
}

/// A call that answers a count and writes so many values.
fn ask_filled<T: Place>(
    (tally, random): (&mut Tally, &mut Random),
    call: &'static str,
    result: &Result<Vec<T>, Refusal>,
    ask: impl Fn(&mut [T]) -> ours::Answer,
    line: impl Fn() -> String,
) {
    for room in rooms(random, result) {
        let expected = match in_room(result, room) {
            Ok(values) => (numbers(&[0, values.len()]), values),
            Err(refusal) => (refused(&refusal), &[][..]),
        };
        judge(tally, call, expected, room, |out| answered(ask(out)), &line);
    }
}

/// A call that writes nothing.
pub fn ask_plain(
    tally: &mut Tally,
    call: &'static str,
    expected: Numbers,
    ask: impl FnOnce() -> Numbers,
    line: impl Fn() -> String,
) {
    judge::<u8>(tally, call, (expected, &[]), 0, |_| ask(), line);
}

/// Asks the calls that an input of a list is for, in rooms of their own.
pub fn input(tally: &mut Tally, random: &mut Random, input: &Input) {
    match input {
        Input::Encode { variant, gain, channels, rate, samples, .. } => {
            let (variant, gain, channels, rate) = (*variant, *gain, *channels, *rate);
            encode(tally, random, &Sound { variant, gain, channels, rate, samples });
        }
        Input::Inspect(bytes) | Input::Decode { stream: bytes, .. } => stream(tally, random, bytes),
        Input::Fragment { version, variant, state, count, bytes } => {
            let fragment = Fragment { version: *version, variant: *variant, bytes, count: *count };
            Channels::new([*state; 2]).play(tally, 0, fragment);
        }
        Input::Wav(bytes) | Input::Strict(bytes) => wave(tally, random, bytes),
        Input::Load { bytes, .. } => load(tally, random, bytes),
        Input::Write { channels, rate, samples, .. } => write(tally, random, *channels, *rate, samples),
        Input::Step { .. } | Input::Volume(_) | Input::Converter(_) | Input::Inspector(_) => {}
    }
}

// ---- streams

pub struct Sound<'a> {
    pub variant: u8,
    pub gain: u8,
    pub channels: u8,
    pub rate: u32,
    pub samples: &'a [i16],
}

impl Sound<'_> {
    fn line(&self) -> String {
        let Sound { variant, gain, channels, rate, samples } = *self;
        format!("encode {} {gain} {channels} {rate}{}", variant_word(variant), sample_words(samples))
    }
}

/// Samples as words; of very many only the count, which has no form in a list.
fn sample_words(samples: &[i16]) -> String {
    if samples.len() > 1 << 20 { format!(" and {} samples", samples.len()) } else { words(samples) }
}

/// Asks the encoder without room for a sound that is too long to be encoded here: it must say the length needed.
pub fn encode_length(tally: &mut Tally, sound: &Sound, needed: usize) {
    let Sound { variant, gain, channels, rate, samples } = *sound;
    let expected = (numbers(&[13, needed]), &[][..]);
    let ask = |out: &mut [u8]| answered(ours::encode(samples, channels, rate, variant, gain, out));
    judge(tally, "encode", expected, 0, ask, || sound.line());
}

/// The same of the writer.
pub fn write_length(tally: &mut Tally, channels: u8, rate: u32, samples: &[i16], needed: usize) {
    let expected = (numbers(&[13, needed]), &[][..]);
    let ask = |out: &mut [u8]| answered(ours::write_wave(channels, rate, samples, out));
    judge(tally, "write", expected, 0, ask, || format!("write {channels} {rate}{}", sample_words(samples)));
}

/// Asks the encoder, and gives the reference's stream.
pub fn encode(tally: &mut Tally, random: &mut Random, sound: &Sound) -> Option<Vec<u8>> {
    let Sound { variant, gain, channels, rate, samples } = *sound;
    let result = answer::encoded(variant, gain, channels, rate, samples);
    let pcm = lent(tally.placement(), samples);
    let ask = |out: &mut [u8]| ours::encode(&pcm, channels, rate, variant, gain, out);
    let line = || sound.line();
    ask_filled((tally, random), "encode", &result, ask, line);
    result.ok()
}

/// The variant's name, or its byte where it has none.
fn variant_word(byte: u8) -> String {
    Variant::try_from(byte).map_or(byte.to_string(), |variant| name(variant).to_string())
}

/// Asks inspection and the decoder.
pub fn stream(tally: &mut Tally, random: &mut Random, bytes: &[u8]) {
    let inspected = match answer::inspect(bytes) {
        Ok(Header { version, variant, channels, rate, samples }) => {
            let bytes = [version, variant, channels].map(usize::from);
            numbers(&[0, 0, 0, bytes[0], bytes[1], bytes[2], rate as usize, samples])
        }
        Err(refusal) => refused(&refusal),
    };
    let file = lent(tally.placement(), bytes);
    let ask = || header_answered(ours::inspect(&file));
    ask_plain(tally, "inspect", inspected, ask, || format!("inspect {}", hex(bytes)));

    let samples = sqv4::decode(bytes).map_err(Refusal::from).map(|audio| audio.samples);
    for room in rooms(random, &samples) {
        let expected = match in_room(&samples, room) {
            Ok(values) => (inspected, values),
            Err(refusal) => (refused(&refusal), &[][..]),
        };
        let ask = |out: &mut [i16]| header_answered(ours::decode(&file, out));
        judge(tally, "decode", expected, room, ask, || format!("decode {}", hex(bytes)));
    }
}

// ---- fragments

#[derive(Clone, Copy)]
pub struct Fragment<'a> {
    pub version: u8,
    pub variant: u8,
    pub bytes: &'a [u8],
    pub count: usize,
}

/// What one fragment comes to from a state.
fn played(fragment: Fragment, state: State) -> Result<(State, Vec<i16>), Refusal> {
    let Fragment { version, variant, bytes, count } = fragment;
    match answer::answer(&Input::Fragment { version, variant, state, count, bytes: bytes.to_vec() })? {
        Answer::Played(state, samples) => Ok((state, samples)),
        _ => unreachable!("a fragment is played"),
    }
}

/// The states of two channels: the reference's, ours by value, and ours in memory that is lent.
pub struct Channels {
    reference: [State; 2],
    carried: [State; 2],
    lent: [ours::State; 2],
}

fn lendable(state: State) -> ours::State {
    ours::State { predictor: state.predictor, index: state.index }
}

fn state_numbers(states: [State; 2]) -> [i64; 4] {
    let [left, right] = states.map(|state| [state.predictor as i64, state.index as i64]);
    [left[0], left[1], right[0], right[1]]
}

impl Channels {
    pub fn new(states: [State; 2]) -> Self {
        Channels { reference: states, carried: states, lent: states.map(lendable) }
    }

    /// Asks both fragment decoders, from one channel's state. After the call both channels' states are compared.
    pub fn play(&mut self, tally: &mut Tally, channel: usize, fragment: Fragment) {
        let Fragment { version, variant, bytes, count } = fragment;
        let before = self.reference[channel];
        let result = played(fragment, before);
        let (expected, values) = match &result {
            Ok((state, samples)) => {
                self.reference[channel] = *state;
                (numbers(&[0, count]), &samples[..])
            }
            Err(refusal) => (refused(refusal), &[][..]),
        };
        let line = || {
            let State { predictor, index } = before;
            format!("fragment {version} {} {predictor} {index} {count} {}", variant_word(variant), hex(bytes))
        };
        let both = |mut call: Numbers, states| {
            call[4..].copy_from_slice(&state_numbers(states));
            call
        };
        let due = both(expected, self.reference);
        let bytes = lent(tally.placement(), bytes);

        let carried = &mut self.carried;
        let by_value = |out: &mut [i16]| {
            let state = lendable(carried[channel]);
            let answer = ours::decode_fragment(version, variant, state, &bytes, out);
            carried[channel] = State { predictor: answer.predictor, index: answer.index };
            both(numbers(&[answer.refusal, answer.first]), *carried)
        };
        let same = judge(tally, "fragment", (due, values), count, by_value, &line);

        let lent = &mut self.lent;
        let mut state = Places::of(tally.placement(), vec![lent[channel]]);
        if result.is_err() || version == 3 {
            // These change no state, so that they need not be allowed to.
            state.forbid_writing();
        }
        let in_place = |out: &mut [i16]| {
            let answer = ours::decode_fragment_lent(version, variant, &mut state[0], &bytes, out);
            lent[channel] = state[0];
            both(answered(answer), lent.map(|state| State { predictor: state.predictor, index: state.index }))
        };
        if !(judge(tally, "fragment lent", (due, values), count, in_place, &line) && same) {
            // The calls that follow are not to blame.
            *self = Channels::new(self.reference);
        }
    }
}

// ---- WAV files

/// Asks both readers, and loads the samples of a file that is accepted.
pub fn wave(tally: &mut Tally, random: &mut Random, file: &[u8]) {
    let line = |call| move || format!("{call} {}", hex(file));
    let lent = lent(tally.placement(), file);
    let numbers = |read: &Result<Wave, Refusal>| match read {
        Ok(Wave { sound, start, size }) => {
            numbers(&[0, sound.channels as usize, sound.sample_rate as usize, *start, *size])
        }
        Err(refusal) => refused(refusal),
    };
    let (plain, strict) = (answer::read(file), answer::read_strict(file));
    ask_plain(tally, "read", numbers(&plain), || wave_answered(ours::read_wave(&lent)), line("wav"));
    ask_plain(
        tally,
        "read strict",
        numbers(&strict),
        || wave_answered(ours::read_strict_wave(&lent)),
        line("strict"),
    );
    if let Ok(Wave { start, size, .. }) = plain {
        load(tally, random, &file[start..start + size]);
        other_field(tally, file, numbers(&strict));
    }
}

/// Asks the strict reader for a file again with the last two bytes of a fmt chunk of 18 changed: the answer must stay the same.
fn other_field(tally: &mut Tally, file: &[u8], strict: Numbers) {
    let paper::Layout { format, format_size: 18, .. } = paper::layout(file) else { return };
    let mut other = file.to_vec();
    other[format + 16..format + 18].iter_mut().for_each(|byte| *byte = !*byte);
    let file = lent(tally.placement(), &other);
    let ask = || wave_answered(ours::read_strict_wave(&file));
    ask_plain(tally, "other field", strict, ask, || format!("strict {}", hex(&other)));
}

/// Asks for these bytes as samples.
pub fn load(tally: &mut Tally, random: &mut Random, bytes: &[u8]) {
    let samples = Ok(answer::loaded(bytes));
    let lent = lent(tally.placement(), bytes);
    let line = || format!("load {}", hex(bytes));
    ask_filled((tally, random), "load samples", &samples, |out| ours::load_samples(&lent, out), line);
}

/// Asks the writer.
pub fn write(tally: &mut Tally, random: &mut Random, channels: u8, rate: u32, samples: &[i16]) {
    let result = convert::written(channels, rate, samples);
    let lent = lent(tally.placement(), samples);
    let ask = |out: &mut [u8]| ours::write_wave(channels, rate, &lent, out);
    ask_filled((tally, random), "write", &result, ask, || {
        format!("write {channels} {rate}{}", sample_words(samples))
    });
}

/// Runs the reference's converter on a file, and holds the stream and the preview that it writes, or its refusal,
/// against ours.
pub fn whole_converter(tally: &mut Tally, file: &[u8], variant: Variant, gain: u8) {
    let expected = convert::converted(file, name(variant), gain).map_err(|refusal| refusal.number as usize);
    let ours = converted(file, variant, gain);
    let due = expected.as_ref().err().copied().unwrap_or(0);
    let picks: [(&str, fn((Vec<u8>, Vec<u8>)) -> Vec<u8>); 2] =
        [("stream", |files| files.0), ("preview", |files| files.1)];
    for (call, pick) in picks {
        let (ours, expected) = (ours.clone().map(pick), expected.clone().map(pick));
        tally.count(call, due, ours == expected, || {
            let [said, due] = [&ours, &expected].map(|side| side.as_ref().err().unwrap_or(&0));
            let says = format!("{call} of {} {gain}: refusal {said}, expected {due}", name(variant));
            (says, format!("wav {}", hex(file)))
        });
    }
}

/// The same by the calls for C: WAV reading, the encoder; the decoder, the WAV writer. The first refusal of a call is
/// the answer.
fn converted(file: &[u8], variant: Variant, gain: u8) -> Result<(Vec<u8>, Vec<u8>), usize> {
    let accepted = |refusal: usize| if refusal == 0 { Ok(()) } else { Err(refusal) };
    let wave = ours::read_wave(file);
    accepted(wave.refusal)?;
    let mut samples = vec![0; wave.size / 2];
    accepted(ours::load_samples(&file[wave.start..wave.start + wave.size], &mut samples).refusal)?;
    let encode = |out: &mut [u8]| ours::encode(&samples, wave.channels as u8, wave.rate, variant as u8, gain, out);
    let mut stream = vec![0; encode(&mut []).first];
    accepted(encode(&mut stream).refusal)?;
    let mut decoded = vec![0; samples.len()];
    let header = ours::decode(&stream, &mut decoded);
    accepted(header.refusal)?;
    let write = |out: &mut [u8]| ours::write_wave(header.channels, header.rate, &decoded, out);
    let mut preview = vec![0; write(&mut []).first];
    accepted(write(&mut preview).refusal)?;
    Ok((stream, preview))
}
