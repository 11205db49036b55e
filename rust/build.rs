//! Finds libpostlapse.a: in the folder POSTLAPSE_LIB_DIR, or else in the repository's target/staticlib. What it was built from
//! (`built.txt` beside it, as tools/build writes it) goes into `postlapse --version`.
use std::path::{Path, PathBuf};
use std::{env, fs, process};

fn fail(words: &str) -> ! {
    eprintln!("{words}");
    process::exit(1)
}

fn main() {
    let target = ["CARGO_CFG_TARGET_ARCH", "CARGO_CFG_TARGET_OS"].map(|name| env::var(name).unwrap_or_default());
    if target != ["x86_64", "linux"] {
        fail("libpostlapse.a is for x86-64 Linux; docs/FIRMWARE.md says what another processor takes");
    }
    println!("cargo:rerun-if-env-changed=POSTLAPSE_LIB_DIR");
    let beside = Path::new(env!("CARGO_MANIFEST_DIR")).join("../target/staticlib");
    let folder = env::var_os("POSTLAPSE_LIB_DIR").filter(|name| !name.is_empty()).map_or(beside, PathBuf::from);
    let archive = folder.join("libpostlapse.a");
    println!("cargo:rerun-if-changed={}", archive.display());
    let Ok(folder) = fs::canonicalize(&folder).and_then(|f| fs::metadata(&archive).map(|_| f)) else {
        let archive = archive.display();
        fail(&format!("there is no {archive}: run `tools/build library` in the repository, or set POSTLAPSE_LIB_DIR to its folder"));
    };
    println!("cargo:rustc-link-search=native={}", folder.display());

    let about = folder.join("built.txt");
    if about.exists() {
        println!("cargo:rerun-if-changed={}", about.display());
    }
    let about = fs::read_to_string(about).unwrap_or_default();
    for (line, variable) in [("commit ", "POSTLAPSE_COMMIT"), ("toolchain ", "POSTLAPSE_TOOLCHAIN")] {
        let said =
            about.lines().find_map(|l| l.strip_prefix(line)).filter(|said| !said.is_empty()).unwrap_or("unknown");
        println!("cargo:rustc-env={variable}={said}");
    }
}
