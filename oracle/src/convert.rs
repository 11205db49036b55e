//! The reference's WAV writer. It is private to the converter, so the converter's whole text stands in this module.

include!(env!("ORACLE_CONVERT"));

use crate::answer::{self, Refusal};

/// A file of this name that no other process writes, in memory where there is such a folder.
pub fn scratch(name: &str) -> PathBuf {
    let memory = PathBuf::from("/dev/shm");
    let folder = if memory.is_dir() { memory } else { env::temp_dir() };
    folder.join(format!("oracle-{}{name}", process::id()))
}

/// The bytes of a file, which is then removed.
fn taken(path: &Path) -> Vec<u8> {
    let bytes = fs::read(path).unwrap();
    fs::remove_file(path).unwrap();
    bytes
}

/// The reference's writer as it is.
pub fn write(path: &Path, channels: u8, rate: u32, samples: &[i16]) {
    write_pcm16_wave(path, channels, rate, samples).unwrap();
}

/// The file that the reference writes. Its refusals are known by their texts alone.
pub fn written(channels: u8, rate: u32, samples: &[i16]) -> Result<Vec<u8>, Refusal> {
    let path = scratch(".wav");
    match write_pcm16_wave(&path, channels, rate, samples) {
        Ok(()) => Ok(taken(&path)),
        Err(text) => Err(Refusal { number: answer::number(&text), values: vec![] }),
    }
}

/// What the reference's converter, run as a program on files, makes of a WAV file: the stream and the preview. Where it
/// refuses, it says why on standard error, exits with 2 and writes no file.
pub fn converted(file: &[u8], variant: &str, gain: u8) -> Result<(Vec<u8>, Vec<u8>), Refusal> {
    let (input, output, preview) = (scratch(".in.wav"), scratch(".sqv"), scratch(".preview.wav"));
    fs::write(&input, file).unwrap();
    let mut program = process::Command::new("target/oracle/sqv4_convert");
    let run = program.args([&input, &output]).args([variant, &gain.to_string()]).output().unwrap();
    fs::remove_file(&input).unwrap();
    if run.status.success() {
        return Ok((taken(&output), taken(&preview)));
    }
    let said = String::from_utf8(run.stderr).unwrap();
    let text = said.strip_prefix("SQV4 conversion failed: ").and_then(|rest| rest.strip_suffix('\n'));
    assert!(run.status.code() == Some(2) && !output.exists() && !preview.exists(), "{said:?}");
    Err(Refusal { number: answer::number(text.expect("a refusal says why")), values: vec![] })
}
