//! Short sample lists on which a slip in the rules of the fragment encoder gives another fragment.
//!
//! The encoder is written here again with its rules as parameters. With the right rules it is compared with the
//! reference on every list that is tried.

use crate::input::{VARIANTS, encode_line, words};
use crate::reference::sqv4::{self, State, Variant};

/// The encoder's rules, each of which can be replaced by a wrong one.
#[derive(Clone, Copy)]
struct Rules {
    last_start: u8,
    judge_normalised: bool,
    later_start: bool,
    strict_step: bool,
    sign_at_zero: bool,
    later_code: bool,
    unclamped_code: bool,
    judge_by_distance: bool,
    strict_half: bool,
    last_part: i32,
    last_code: u8,
}

const RIGHT: Rules = Rules {
    last_start: 88,
    judge_normalised: false,
    later_start: false,
    strict_step: false,
    sign_at_zero: false,
    later_code: false,
    unclamped_code: false,
    judge_by_distance: false,
    strict_half: false,
    last_part: 4,
    last_code: 7,
};

struct Slip {
    says: &'static str,
    rules: Rules,
    variants: &'static [Variant],
    /// Only lists whose right fragment has a sum above 0 count.
    with_loss: bool,
    /// A list that shows it, where the short ones do not.
    samples: Option<&'static [i16]>,
}

const SLIPS: [Slip; 11] = [
    Slip {
        says: "(a) starts tried up to 87 only",
        rules: Rules { last_start: 87, ..RIGHT },
        variants: &VARIANTS,
        with_loss: false,
        samples: None,
    },
    Slip {
        says: "(b) start judged by normalised values and predictors",
        rules: Rules { judge_normalised: true, ..RIGHT },
        variants: &VARIANTS,
        with_loss: false,
        samples: None,
    },
    Slip {
        says: "(c) later start wins at the same sum",
        rules: Rules { later_start: true, ..RIGHT },
        variants: &VARIANTS,
        with_loss: true,
        samples: None,
    },
    Slip {
        says: "(d) step taken off only where it is less than the rest",
        rules: Rules { strict_step: true, ..RIGHT },
        variants: &[Variant::H],
        with_loss: false,
        samples: None,
    },
    Slip {
        says: "(e) sign bit set where input equals predictor",
        rules: Rules { sign_at_zero: true, ..RIGHT },
        variants: &[Variant::H],
        with_loss: false,
        samples: None,
    },
    Slip {
        says: "(f) later of two codes that are equally near wins",
        rules: Rules { later_code: true, ..RIGHT },
        variants: &[Variant::L, Variant::LPlus],
        with_loss: false,
        samples: None,
    },
    Slip {
        says: "(g) nearest code found before the clamp",
        rules: Rules { unclamped_code: true, ..RIGHT },
        variants: &[Variant::L, Variant::LPlus],
        with_loss: false,
        samples: None,
    },
    Slip {
        says: "(h) start judged by distances and not by their squares",
        rules: Rules { judge_by_distance: true, ..RIGHT },
        variants: &[Variant::H],
        with_loss: false,
        samples: Some(&[-2035, 1058]),
    },
    Slip {
        says: "(i) half a step taken off only where it is less than the rest",
        rules: Rules { strict_half: true, ..RIGHT },
        variants: &[Variant::H],
        with_loss: false,
        samples: Some(&[741, -1652]),
    },
    Slip {
        says: "(j) a fifth of a step for the quarter",
        rules: Rules { last_part: 5, ..RIGHT },
        variants: &[Variant::H],
        with_loss: false,
        samples: Some(&[-2748, -474]),
    },
    Slip {
        says: "(k) code 7 left out",
        rules: Rules { last_code: 6, ..RIGHT },
        variants: &[Variant::L, Variant::LPlus],
        with_loss: false,
        samples: Some(&[-1]),
    },
];

/// For each length of list, the greatest magnitude that is tried.
const BOUNDS: [(usize, i32); 4] = [(1, 32768), (2, 200), (3, 20), (4, 6)];

/// For each slip and variant the list that is given or the first that shows it, shortest lists and small magnitudes first.
pub fn list() -> String {
    let encoder = Encoder::new();
    let mut text = String::new();
    for slip in &SLIPS {
        for &variant in slip.variants {
            text += &shown(&encoder, slip, variant).unwrap_or(format!("# {}: no list found\n", slip.says));
        }
    }
    text
}

fn shown(encoder: &Encoder, slip: &Slip, variant: Variant) -> Option<String> {
    let tried = |samples: &[i16]| {
        let (right, sum) = encoder.encode(RIGHT, variant, samples);
        assert_eq!(right, from_reference(variant, samples), "{samples:?}");
        let (wrong, _) = encoder.encode(slip.rules, variant, samples);
        (wrong != right && (sum > 0 || !slip.with_loss)).then(|| {
            let found = format!("# {}: {}; right: {}, sum {sum}\n", slip.says, wrong.text(), right.text());
            found + &encode_line(variant, 255, 1, 8000, samples)
        })
    };
    match slip.samples {
        Some(samples) => tried(samples),
        None => {
            let all = BOUNDS.into_iter().flat_map(|(length, bound)| (1..=bound).flat_map(move |greatest| lists(length, greatest)));
            all.into_iter().find_map(|samples| tried(&samples))
        }
    }
}

/// All lists of a length whose greatest magnitude is the given one, those with a smaller sum of magnitudes first.
fn lists(length: usize, greatest: i32) -> Vec<Vec<i16>> {
    if length == 0 {
        return vec![];
    }
    let mut all = longer([greatest, -greatest].into_iter(), lists_within(length - 1, greatest));
    all.extend(longer(1 - greatest..greatest, lists(length - 1, greatest)));
    all.sort_by_key(|list| list.iter().map(|&sample| (sample as i32).abs()).sum::<i32>());
    all
}

/// All lists of a length with magnitudes up to the given one.
fn lists_within(length: usize, most: i32) -> Vec<Vec<i16>> {
    match length {
        0 => vec![vec![]],
        _ => longer(-most..=most, lists_within(length - 1, most)),
    }
}

/// Each number, where it fits a sample, before each list.
fn longer(numbers: impl Iterator<Item = i32> + Clone, lists: Vec<Vec<i16>>) -> Vec<Vec<i16>> {
    let samples = numbers.filter_map(|number| i16::try_from(number).ok());
    lists.iter().flat_map(|list| samples.clone().map(move |sample| [&[sample], &list[..]].concat())).collect()
}

// ---- the encoder of one fragment

#[derive(PartialEq, Debug)]
struct Fragment {
    volume: u8,
    start: u8,
    codes: Vec<u8>,
}

impl Fragment {
    fn text(&self) -> String {
        format!("start {}, codes{}", self.start, words(&self.codes))
    }
}

fn from_reference(variant: Variant, samples: &[i16]) -> Fragment {
    let mut bytes = Vec::new();
    sqv4::encode_fragment(variant, samples, &mut bytes);
    let code = |at| sqv4::unpack_code(&bytes[2..], at, variant.bits());
    Fragment { volume: bytes[0], start: bytes[1], codes: (0..samples.len()).map(code).collect() }
}

/// The reference's decoding of one code.
fn after(variant: Variant, mut state: State, code: u8) -> State {
    sqv4::decode_code(3, variant, &mut state, code);
    state
}

/// How far a code moves the predictor at an index: from the lowest predictor no code is clamped that adds.
fn size(variant: Variant, index: usize, code: u8) -> i32 {
    after(variant, State { predictor: -32768, index }, code).predictor + 32768
}

fn normalised(sample: i16, volume: u8) -> i32 {
    let (sample, volume) = (sample as i32, volume as i32);
    let magnitude = (sample.abs() * 255 + volume / 2) / volume;
    (sample.signum() * magnitude).clamp(-32768, 32767)
}

struct Encoder {
    /// The reference's table of steps, which is private there: in H, code 4 adds one step more than code 0.
    steps: [i32; 89],
}

impl Encoder {
    fn new() -> Self {
        let step = |index| size(Variant::H, index, 4) - size(Variant::H, index, 0);
        Encoder { steps: std::array::from_fn(step) }
    }

    /// The winning fragment and its sum of squared distances.
    fn encode(&self, rules: Rules, variant: Variant, samples: &[i16]) -> (Fragment, i64) {
        let volume = sqv4::fragment_volume(samples);
        if volume == 0 {
            return (Fragment { volume, start: 0, codes: vec![0; samples.len()] }, 0);
        }
        let (mut best, mut least) = (Fragment { volume, start: 0, codes: vec![] }, i64::MAX);
        for start in 0..=rules.last_start {
            let (codes, sum) = self.trial(rules, variant, samples, volume, start);
            if sum < least || (sum == least && rules.later_start) {
                (best, least) = (Fragment { volume, start, codes }, sum);
            }
        }
        (best, least)
    }

    fn trial(&self, rules: Rules, variant: Variant, samples: &[i16], volume: u8, start: u8) -> (Vec<u8>, i64) {
        let mut state = State::fragment_start(start);
        let (mut codes, mut sum) = (Vec::new(), 0);
        for &sample in samples {
            let input = normalised(sample, volume);
            let code = match variant {
                Variant::H => self.code_h(rules, state, input),
                _ => code_l(rules, variant, state, input),
            };
            codes.push(code);
            state = after(variant, state, code);
            let distance = match rules.judge_normalised {
                true => input - state.predictor,
                false => sample as i32 - sqv4::apply_volume(state.predictor, volume as i32),
            };
            sum += (distance as i64).abs().pow(if rules.judge_by_distance { 1 } else { 2 });
        }
        (codes, sum)
    }

    fn code_h(&self, rules: Rules, state: State, input: i32) -> u8 {
        let step = self.steps[state.index];
        let mut rest = (input - state.predictor).abs();
        let negative = input < state.predictor || (input == state.predictor && rules.sign_at_zero);
        let mut code = if negative { 8 } else { 0 };
        for (bit, part) in [(4, step), (2, step / 2), (1, step / rules.last_part)] {
            if rest > part || (rest == part && !rules.strict_step && !(rules.strict_half && bit == 2)) {
                code |= bit;
                rest -= part;
            }
        }
        code
    }
}

fn code_l(rules: Rules, variant: Variant, state: State, input: i32) -> u8 {
    let reached = |code: u8| match rules.unclamped_code {
        true if code < 4 => state.predictor + size(variant, state.index, code),
        true => state.predictor - size(variant, state.index, code - 4),
        false => after(variant, state, code).predictor,
    };
    let (mut best, mut least) = (0, i32::MAX);
    for code in 0..=rules.last_code {
        let distance = (input - reached(code)).abs();
        if distance < least || (distance == least && rules.later_code) {
            (best, least) = (code, distance);
        }
    }
    best
}
