//! What the words of a call of the command ask for. Nothing here needs the library or looks at a file, so that `./postlapse` can ask
//! before it builds.
use std::ffi::{OsStr, OsString};
use std::os::unix::ffi::OsStrExt;

pub enum Verb {
    /// The variant as the byte of a stream, and the gain.
    Encode {
        variant: u8,
        gain: u8,
    },
    /// One channel alone, or all.
    Decode {
        channel: Option<u8>,
    },
    Inspect,
    /// SQV4 files, or WAV files by strict reading.
    Check {
        strict: bool,
    },
}

pub struct Job {
    pub verb: Verb,
    pub inputs: Vec<OsString>,
    pub output: Option<OsString>,
    pub force: bool,
    pub quiet: bool,
}

pub enum Asked {
    Do(Job),
    Help(&'static str),
    Version,
}

const GENERAL: &str = "\
postlapse makes SQV4 files, the voice clips of lift modules, of WAV files, and WAV files of them.

usage: postlapse encode IN.wav..    make an SQV4 file of each WAV file
       postlapse decode IN.sqv4..   make a WAV file of each SQV4 file
       postlapse check FILE..       say of each SQV4 file whether it is sound
       postlapse check --strict FILE.wav..   say of each WAV file whether strict reading takes it
       postlapse inspect FILE       print what an SQV4 file holds
       postlapse convert IN.wav OUT.sqv4 [H|L|L+] [GAIN]   encode, as older scripts call it
       postlapse help [VERB]        say more of one of these (also: postlapse VERB --help)
       postlapse --version

- as a name is standard input or output. A file that is there already is replaced only with -f.
Exit status: 0 done, 1 refused, 2 wrong usage or a file that cannot be read or written.
";

const ENCODE: &str = "\
usage: postlapse encode IN.wav.. [-o OUT|DIR] [-v H|L|L+] [-g GAIN] [-f] [-q]

makes an SQV4 file of each WAV file: plain 16-bit PCM, mono or stereo, of any length and rate.

  -o, --output OUT     the file to write, or the folder for all; else NAME.sqv4 beside each NAME.wav. - is standard output
  -v, --variant V      H (4 bits a sample, the default), L or L+ (3 bits)
  -g, --gain GAIN      0 to 255; 255, the default, keeps the loudness, 128 halves it, 0 gives silence
  -f, --force          replace files that are there already
  -q, --quiet          say nothing of what went well
";

const DECODE: &str = "\
usage: postlapse decode IN.sqv4.. [-o OUT.wav|DIR] [-c CHANNEL] [-f] [-q]

makes a 16-bit WAV file of each SQV4 file, of version 1, 2 or 3.

  -o, --output OUT     the file to write, or the folder for all; else NAME.wav beside each NAME.sqv4. - is standard output
  -c, --channel C      this channel alone: 0 is left, 1 is right
  -f, --force          replace files that are there already
  -q, --quiet          say nothing of what went well
";

const INSPECT: &str = "\
usage: postlapse inspect FILE [-q]

prints a line of the file's header, then a line for each fragment: frame, channel, samples, volume, step index (- in
versions 1 and 2). Frames and channels count from 0.

  -q, --quiet          say nothing on the terminal of what is being done
";

const CHECK: &str = "\
usage: postlapse check FILE.. [-q]
       postlapse check --strict FILE.wav.. [-q]

prints a line for each SQV4 file: ok, with version, variant, channels, rate, seconds and bytes; or refused, with the number
and why. Where one fragment is damaged the line has its frame and channel, which count from 0.

With --strict it prints a line for each WAV file: ok, with channels, rate, seconds and bytes; or refused, with the number
and why. Strict reading takes what encode takes, where the fmt chunk has 16 or 18 bytes (the last two of 18 are ignored)
and stands before the data, and the file ends where its header says. Other chunks may stand anywhere. What is refused with
40, 41 or 42 encode takes all the same.

  -s, --strict         the files are WAV files, for strict reading
  -q, --quiet          only the files that are refused
";

const CONVERT: &str = "\
usage: postlapse convert IN.wav OUT.sqv4 [H|L|L+] [GAIN] [-f] [-q]

is encode with the arguments of older scripts: one file, its output, variant and gain, which -v and -g may name too. See
postlapse help encode.
";

/// A verb, the options that it takes, and its help.
const VERBS: [(&str, &str, &str); 5] = [
    ("encode", "ovgfq", ENCODE),
    ("decode", "ocfq", DECODE),
    ("inspect", "q", INSPECT),
    ("check", "sq", CHECK),
    ("convert", "vgfq", CONVERT),
];

/// The long names of the options, and whether a value follows.
const OPTIONS: [(char, &str, bool); 9] = [
    ('o', "output", true),
    ('v', "variant", true),
    ('g', "gain", true),
    ('c', "channel", true),
    ('s', "strict", false),
    ('f', "force", false),
    ('q', "quiet", false),
    ('h', "help", false),
    ('V', "version", false),
];

fn misused(what: impl std::fmt::Display, verb: &str) -> String {
    format!("{what}; see postlapse help{}{verb}", if verb.is_empty() { "" } else { " " })
}

/// A word as it is said to people: control characters and what is not UTF-8 cannot be mistaken for something else.
pub fn shown(word: impl AsRef<OsStr>) -> String {
    let text = word.as_ref().to_string_lossy();
    text.chars().map(|c| if c.is_control() { c.escape_default().to_string() } else { c.to_string() }).collect()
}

pub fn read(words: impl Iterator<Item = OsString>) -> Result<Asked, String> {
    let mut words = words;
    let first = words.next().ok_or_else(|| misused("the first word says what to do", ""))?;
    let verb = match first.to_str() {
        Some("help" | "--help" | "-h") => return help(words.next()),
        Some("--version" | "-V") => return Ok(Asked::Version),
        word => VERBS.iter().find(|(name, _, _)| Some(*name) == word),
    };
    let &(verb, takes, help) =
        verb.ok_or_else(|| misused(format!("'{}' is nothing that postlapse does", shown(&first)), ""))?;

    let (names, options) = sorted(words, verb, takes)?;
    let given = |letter| options.iter().rev().find(|(l, _)| *l == letter).map(|(_, value)| value.as_os_str());
    if given('h').is_some() {
        return Ok(Asked::Help(help));
    }
    if given('V').is_some() {
        return Ok(Asked::Version);
    }
    let mut job = Job {
        verb: Verb::Check { strict: given('s').is_some() },
        inputs: names,
        output: given('o').map(OsStr::to_os_string),
        force: given('f').is_some(),
        quiet: given('q').is_some(),
    };
    job.verb = match verb {
        "encode" => Verb::Encode { variant: variant(given('v'), verb)?, gain: gain(given('g'), verb)? },
        "decode" => Verb::Decode { channel: given('c').map(channel).transpose()? },
        "inspect" if job.inputs.len() > 1 => return Err(misused("inspect takes one name", verb)),
        "inspect" => Verb::Inspect,
        "check" => job.verb,
        _ => {
            if !(2..=4).contains(&job.inputs.len()) {
                let words = "convert takes two names, and at most a variant and a gain (encode takes many files)";
                return Err(misused(words, verb));
            }
            let mut rest = job.inputs.split_off(1).into_iter();
            job.output = rest.next();
            let (third, fourth) = (rest.next(), rest.next());
            Verb::Encode {
                variant: variant(third.as_deref().or(given('v')), verb)?,
                gain: gain(fourth.as_deref().or(given('g')), verb)?,
            }
        }
    };
    if job.inputs.is_empty() {
        return Err(misused(format!("{verb} takes a name"), verb));
    }
    if job.inputs.iter().filter(|name| *name == "-").count() > 1 {
        return Err(misused("standard input can be read once", verb));
    }
    Ok(Asked::Do(job))
}

fn help(verb: Option<OsString>) -> Result<Asked, String> {
    let Some(verb) = verb else { return Ok(Asked::Help(GENERAL)) };
    let found = VERBS.iter().find(|(name, _, _)| verb == *name);
    found
        .map(|(_, _, help)| Asked::Help(help))
        .ok_or_else(|| misused(format!("there is no verb '{}'", shown(&verb)), ""))
}

/// The names, and the options by letter with their values, of a verb that takes some of the options. -- ends the options.
#[allow(clippy::type_complexity)]
fn sorted(
    mut words: impl Iterator<Item = OsString>,
    verb: &str,
    takes: &str,
) -> Result<(Vec<OsString>, Vec<(char, OsString)>), String> {
    let (mut names, mut options) = (Vec::new(), Vec::new());
    while let Some(word) = words.next() {
        let bytes = word.as_bytes();
        if bytes == b"--" {
            names.extend(words.by_ref());
        } else if let Some(long) = bytes.strip_prefix(b"--") {
            let end = long.iter().position(|b| *b == b'=').unwrap_or(long.len());
            let known = OPTIONS.iter().find(|(_, name, _)| name.as_bytes() == &long[..end]);
            let (letter, _, valued) = option(known, &word, verb, takes)?;
            let value = match (valued, long.get(end + 1..)) {
                (true, Some(value)) => OsStr::from_bytes(value).to_os_string(),
                (true, None) => value(&mut words, &word, verb)?,
                (false, None) => OsString::new(),
                (false, Some(_)) => return Err(misused(format!("'{}' takes no value", shown(&word)), verb)),
            };
            options.push((letter, value));
        } else if bytes.len() > 1 && bytes[0] == b'-' {
            let mut at = 1;
            while at < bytes.len() {
                let known = OPTIONS.iter().find(|(letter, _, _)| *letter == char::from(bytes[at]));
                let (letter, _, valued) = option(known, &word, verb, takes)?;
                at += 1;
                let mut found = OsString::new();
                if valued {
                    found = match &bytes[at..] {
                        [] => value(&mut words, &word, verb)?,
                        rest => OsStr::from_bytes(rest).to_os_string(),
                    };
                    at = bytes.len();
                }
                options.push((letter, found));
            }
        } else {
            names.push(word);
        }
    }
    Ok((names, options))
}

/// An option, if it is one and the verb takes it; all take -h and -V.
fn option(
    known: Option<&(char, &'static str, bool)>,
    word: &OsStr,
    verb: &str,
    takes: &str,
) -> Result<(char, &'static str, bool), String> {
    match known {
        Some(&found) if takes.contains(found.0) || "hV".contains(found.0) => Ok(found),
        _ => {
            let words = format!("{verb} has no option '{0}' (a file of that name is ./{0})", shown(word));
            Err(misused(words, verb))
        }
    }
}

fn value(words: &mut impl Iterator<Item = OsString>, word: &OsStr, verb: &str) -> Result<OsString, String> {
    words.next().ok_or_else(|| misused(format!("'{}' takes a value", shown(word)), verb))
}

fn variant(word: Option<&OsStr>, verb: &str) -> Result<u8, String> {
    let word = word.unwrap_or(OsStr::new("H"));
    match word.to_ascii_uppercase().to_str() {
        Some("H") => Ok(0),
        Some("L") => Ok(1),
        Some("L+" | "LPLUS") => Ok(2),
        _ => Err(misused(format!("there is no variant '{}'", shown(word)), verb)),
    }
}

/// A number of 0 to 255, in digits alone.
fn byte(word: &OsStr) -> Option<u8> {
    let text = word.to_str()?;
    let digits = !text.is_empty() && text.bytes().all(|b| b.is_ascii_digit());
    if digits {
        text.parse().ok()
    } else {
        None
    }
}

fn gain(word: Option<&OsStr>, verb: &str) -> Result<u8, String> {
    let word = word.unwrap_or(OsStr::new("255"));
    byte(word).ok_or_else(|| misused(format!("a gain is a number from 0 to 255, not '{}'", shown(word)), verb))
}

fn channel(word: &OsStr) -> Result<u8, String> {
    byte(word).ok_or_else(|| {
        misused(format!("a channel is a number: 0 is left, 1 is right; '{}' is none", shown(word)), "decode")
    })
}
