//! The command `postlapse`: what its words ask for (`arguments`), which file is made of which (`plan`), done by the library's calls.
#![deny(unsafe_code)]

mod advice;
mod arguments;
mod files;
mod plan;
mod progress;
mod system;

use std::io::{self, BufWriter, Write};
use std::process::ExitCode;

use arguments::{shown, Asked, Job, Verb};
use plan::{Item, Place};
use postlapse::{sqv4, wav, Header, Refusal, Variant};
use progress::Progress;

/// Why an item was not done: a refusal in words, or a file that cannot be read or written.
enum Failure {
    Refused(String),
    File(String),
}

impl From<String> for Failure {
    fn from(words: String) -> Failure {
        Failure::File(words)
    }
}

/// A refusal: its number, where it was found if that is known, and words.
fn refused(refusal: Refusal, place: &str, words: &str) -> Failure {
    Failure::Refused(format!("refused {}{place}: {words}", refusal.number()))
}

fn main() -> ExitCode {
    let job = match arguments::read(std::env::args_os().skip(1)) {
        Ok(Asked::Do(job)) => job,
        Ok(Asked::Help(text)) => return answered(text),
        Ok(Asked::Version) => return answered(&version()),
        Err(words) => return misused(&words),
    };
    let items = match plan::plan(&job) {
        Ok(items) => items,
        Err(words) => return misused(&words),
    };
    system::watch_signals();
    ExitCode::from(all(&job, &items))
}

fn answered(text: &str) -> ExitCode {
    match files::printed(io::stdout().write_all(text.as_bytes())) {
        Ok(()) => ExitCode::SUCCESS,
        Err(words) => misused(&words),
    }
}

fn misused(words: &str) -> ExitCode {
    Progress::new(true).say(words);
    ExitCode::from(2)
}

fn version() -> String {
    let (package, number) = (env!("CARGO_PKG_VERSION"), postlapse::library_version());
    let library = format!("{}.{}.{}", number / 10000, number / 100 % 100, number % 100);
    let (commit, toolchain) = (env!("POSTLAPSE_COMMIT"), env!("POSTLAPSE_TOOLCHAIN"));
    format!("postlapse {package}, library {library}\ncommit {commit}\ntoolchain {toolchain}\n")
}

/// Does one item after the other; one that fails does not keep the others from being done. Gives the highest status.
fn all(job: &Job, items: &[Item]) -> u8 {
    let progress = Progress::new(job.quiet);
    let mut status = 0;
    for (at, item) in items.iter().enumerate() {
        let of = if items.len() > 1 { format!(" ({} of {})", at + 1, items.len()) } else { String::new() };
        progress.now(format!("{}{of}", item.from.input()));
        let done = match &item.wrong {
            Some(words) => Err(Failure::File(words.clone())),
            None => one(job, item, &progress),
        };
        match done {
            Ok(words) => progress.done(&words),
            Err(Failure::Refused(words)) => {
                // The verdict of `check` is its data, and stands on standard output.
                if !matches!(job.verb, Verb::Check { .. }) {
                    progress.say(&format!("{}: {words}", item.from.input()));
                }
                status = status.max(1);
            }
            Err(Failure::File(words)) => {
                progress.say(&words);
                status = 2;
            }
        }
    }
    status
}

fn one(job: &Job, item: &Item, progress: &Progress) -> Result<String, Failure> {
    let wanted: &[u8] = match job.verb {
        Verb::Encode { .. } | Verb::Check { strict: true } => b"RIFF",
        _ => b"SQV4",
    };
    let file = files::read(&item.from, wanted)?;
    match job.verb {
        Verb::Encode { variant, gain } => {
            room(&item.from, file.len())?;
            let (seconds, stream) = encoded(file, variant, gain)?;
            written(job, item, seconds, &stream)
        }
        Verb::Decode { channel } => {
            // A fragment of 25 bytes or more gives at most 128.
            room(&item.from, file.len().saturating_mul(6))?;
            let (seconds, wave) = decoded(&item.from, &file, channel)?;
            written(job, item, seconds, &wave)
        }
        Verb::Inspect => inspected(&file, progress).map(|()| String::new()),
        Verb::Check { strict } => {
            let verdict = if strict { strictly_read(&file) } else { sound(&file) };
            checked(job, &item.from, verdict, progress).map(|()| String::new())
        }
    }
}

/// Memory for so many bytes can be had now. Where it could not the library's vectors would end the program, with a status of its own.
fn room(from: &Place, bytes: usize) -> Result<(), Failure> {
    let mut tried: Vec<u8> = Vec::new();
    let had = tried.try_reserve_exact(bytes);
    std::hint::black_box(&tried);
    had.map_err(|_| Failure::File(format!("{} takes more memory than there is", from.input())))
}

fn written(job: &Job, item: &Item, seconds: f64, bytes: &[u8]) -> Result<String, Failure> {
    let Some(to) = &item.to else { return Ok(String::new()) };
    files::write(to, bytes, job.force)?;
    Ok(match to {
        Place::Standard => String::new(),
        Place::File(path) => format!("{}: {seconds:.3} s in {} bytes", shown(path), bytes.len()),
    })
}

fn encoded(file: Vec<u8>, variant: u8, gain: u8) -> Result<(f64, Vec<u8>), Failure> {
    let fail = |refusal, file: &[u8]| refused(refusal, "", &advice::not_encoded(refusal, file));
    let wave = wav::read_pcm16_wave(&file).map_err(|refusal| fail(refusal, &file))?;
    drop(file);
    let variant = Variant::try_from(variant).map_err(|refusal| fail(refusal, &[]))?;
    let stream = sqv4::encode_interleaved(&wave.samples, wave.channels, wave.sample_rate, variant, gain)
        .map_err(|refusal| fail(refusal, &[]))?;
    let samples = wave.samples.len() / usize::from(wave.channels);
    Ok((samples as f64 / f64::from(wave.sample_rate), stream))
}

fn decoded(from: &Place, file: &[u8], channel: Option<u8>) -> Result<(f64, Vec<u8>), Failure> {
    let sound = sqv4::decode(file).map_err(|refusal| damaged(refusal, file))?;
    let (mut channels, mut samples) = (sound.channels, sound.samples);
    if let Some(channel) = channel {
        if channel >= channels {
            return Err(Failure::File(format!(
                "{} has no channel {channel}; it has {channels}, counted from 0",
                from.input()
            )));
        }
        samples = samples.into_iter().skip(channel.into()).step_by(channels.into()).collect();
        channels = 1;
    }
    room(from, samples.len() * 2)?;
    let wave = wav::write_pcm16_wave(channels, sound.sample_rate, &samples)
        .map_err(|refusal| refused(refusal, "", &advice::not_written(refusal)))?;
    Ok(((samples.len() / usize::from(channels)) as f64 / f64::from(sound.sample_rate), wave))
}

/// The refusal of a stream, with frame and channel where a fragment is damaged.
fn damaged(refusal: Refusal, file: &[u8]) -> Failure {
    let place = sqv4::damage(file).map(|(frame, channel)| format!(" frame {frame} channel {channel}"));
    refused(refusal, &place.unwrap_or_default(), &advice::not_a_stream(refusal, file))
}

fn inspected(file: &[u8], progress: &Progress) -> Result<(), Failure> {
    let header = sqv4::inspect(file).map_err(|refusal| damaged(refusal, file))?;
    progress.done("");
    let mut out = BufWriter::new(io::stdout().lock());
    files::printed(sqv4::write_report(&header, file, &mut out).and_then(|()| out.flush()))?;
    Ok(())
}

fn checked(job: &Job, from: &Place, verdict: Result<String, Failure>, progress: &Progress) -> Result<(), Failure> {
    let name = match from {
        Place::Standard => "-".into(),
        Place::File(path) => shown(path),
    };
    let (Ok(line) | Err(Failure::Refused(line) | Failure::File(line))) = &verdict;
    progress.done("");
    if verdict.is_err() || !job.quiet {
        files::printed(writeln!(io::stdout(), "{name}: {line}"))?;
    }
    verdict.map(|_| ())
}

fn sound(file: &[u8]) -> Result<String, Failure> {
    let header = sqv4::inspect(file).map_err(|refusal| damaged(refusal, file))?;
    let Header { version, variant, channels, sample_rate, samples_per_channel, .. } = header;
    let rest = form(channels, sample_rate, samples_per_channel, file);
    Ok(format!("ok version {version} variant {variant} {rest}"))
}

fn strictly_read(file: &[u8]) -> Result<String, Failure> {
    let info = wav::strict_info(file).map_err(|refusal| refused(refusal, "", &advice::not_strict(refusal, file)))?;
    Ok(format!("ok {}", form(info.channels, info.sample_rate, info.samples_per_channel, file)))
}

fn form(channels: u8, rate: u32, samples: usize, file: &[u8]) -> String {
    let seconds = samples as f64 / f64::from(rate);
    format!("channels {channels} rate {rate} seconds {seconds:.3} bytes {}", file.len())
}
