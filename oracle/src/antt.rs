//! The reference's answers as an antt file: for each input a theorem, proved by computing it, that the port's definitions
//! give the same answer.

use crate::answer::{Answer, Header, Refusal, answer};
use crate::input::{Input, bad_line};
use crate::reference::sqv4::{State, Variant};

/// The lines above the theorems.
const HEADER: &str = "\
-- Answers of the reference Rust, each a theorem that is computed. Made by `oracle/run antt`. Assumes nothing.
use mathlib.Core.List.{[], ◌∷◌}
use lib.Dec.{T}
use lib.IntN.{pos, negsuc}
use Rattle.sqv4_format.specs.Compute.{computing}
use Rattle.sqv4_format.specs.Tests.{encodes, encode_refused, inspects, inspect_refused, decodes, decode_refused, plays, steps}
use Rattle.sqv4_format.specs.declared.Variant.TheVariants.{H, L, LPlus}
";

const WIDTH: usize = 118;

/// The whole file. The inputs come with the numbers of their lines.
pub fn file(inputs: &[(usize, Input)]) -> Result<String, String> {
    let mut text = HEADER.to_string();
    for (at, (line, input)) in (1..).zip(inputs) {
        let mut words = vec![format!("vector{at} : T")];
        words.extend(test(input).ok_or_else(|| bad_line(*line, "no test in antt for this input"))?);
        let test = words[1].clone();
        words[1] = format!("({test}");
        words.last_mut().unwrap().push(')');
        text += &format!("\n{}unfolding computing\nvector{at} = tt\n", wrapped(&words));
    }
    Ok(text)
}

/// The test of one input, in words that are not parted at the end of a line. There is none of a room, of a variant byte above 2, of a
/// refused fragment and of the kinds at the end.
fn test(input: &Input) -> Option<Vec<String>> {
    let answer = answer(input);
    Some(match input {
        Input::Encode { variant, gain, channels, rate, samples, room: None } => {
            let call = format!("{} {gain} {channels} {rate}", byte_name(*variant)?);
            either("encode", [vec![call], integers(samples)].concat(), answer)
        }
        Input::Inspect(bytes) => either("inspect", naturals(bytes), answer),
        Input::Decode { stream, room: None } => either("decode", naturals(stream), answer),
        Input::Fragment { version, variant, state, count, bytes } => {
            let call = format!("plays {version} {} {} {count}", byte_name(*variant)?, state_words(*state));
            [vec![call], naturals(bytes), result(answer.ok()?)].concat()
        }
        Input::Step { version, variant, state, code } => {
            let call = format!("steps {version} {} {} {code}", name(*variant), state_words(*state));
            [vec![call], result(answer.ok()?)].concat()
        }
        Input::Encode { .. } | Input::Decode { .. } | Input::Volume(_) => return None,
        Input::Wav(_) | Input::Strict(_) | Input::Load { .. } | Input::Write { .. } => return None,
        Input::Converter(_) | Input::Inspector(_) => return None,
    })
}

/// A call that can be refused: `encodes`, `inspects` or `decodes` with the result, or `encode_refused` and so on with
/// the number and the returned values.
fn either(verb: &str, call: Vec<String>, answer: Result<Answer, Refusal>) -> Vec<String> {
    match answer {
        Ok(answer) => [vec![format!("{verb}s")], call, result(answer)].concat(),
        Err(Refusal { number, values }) => {
            [vec![format!("{verb}_refused")], call, vec![number.to_string()], naturals(&values)].concat()
        }
    }
}

fn result(answer: Answer) -> Vec<String> {
    match answer {
        Answer::Stream(bytes) => naturals(&bytes),
        Answer::Header(Header { version, variant, channels, rate, samples }) => {
            vec![format!("{version} {variant} {channels} {rate} {samples}")]
        }
        Answer::Decoded(_, samples) => integers(&samples),
        Answer::Played(state, samples) => [vec![state_words(state)], integers(&samples)].concat(),
        Answer::Stepped(state) => vec![state_words(state)],
        Answer::Volume(_) | Answer::Wave(_) | Answer::Loaded(_) | Answer::File(_) | Answer::Printed(_) => vec![],
    }
}

fn byte_name(byte: u8) -> Option<&'static str> {
    Variant::try_from(byte).ok().map(name)
}

fn name(variant: Variant) -> &'static str {
    match variant {
        Variant::H => "H",
        Variant::L => "L",
        Variant::LPlus => "LPlus",
    }
}

fn state_words(state: State) -> String {
    format!("({}) {}", integer(state.predictor), state.index)
}

/// -5 is `negsuc 4`.
fn integer(number: i32) -> String {
    if number < 0 { format!("negsuc {}", !number) } else { format!("pos {number}") }
}

fn integers(numbers: &[i16]) -> Vec<String> {
    list(numbers.iter().map(|&number| integer(number as i32)).collect())
}

fn naturals<T: ToString>(numbers: &[T]) -> Vec<String> {
    list(numbers.iter().map(|number| number.to_string()).collect())
}

fn list(items: Vec<String>) -> Vec<String> {
    if items.is_empty() {
        return vec!["[]".to_string()];
    }
    let mut words: Vec<String> = items.iter().map(|item| format!("{item} ∷")).collect();
    words[0].insert(0, '(');
    words.push("[])".to_string());
    words
}

/// Words over lines of at most WIDTH columns; the lines after the first are indented by 4 spaces.
fn wrapped(words: &[String]) -> String {
    let mut text = String::new();
    let mut line = String::new();
    for word in words {
        if !line.is_empty() && line.chars().count() + 1 + word.chars().count() > WIDTH {
            text += &(std::mem::take(&mut line) + "\n");
            line += "   "; // the fourth space comes with the word
        }
        if !line.is_empty() {
            line.push(' ');
        }
        line += word;
    }
    text + &line + "\n"
}
