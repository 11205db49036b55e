# Read by run, diff, bench and fuzz: where things are, and how they are built. What is up to date is not built again.
#
# The reference sources are not part of this repository. They are read from the folder in the variable SRC32, or else
# from ../shared/docs/src beside the repository.
set -eu

me=oracle/$(basename -- "$0")
top=$(CDPATH= cd -- "$(dirname -- "$0")/.." && pwd)
reference=${SRC32:-$top/../shared/docs/src}
ours=$top/oracle/src
out=$top/target/oracle

for file in src/devices/sgu/sqv4.rs src/wav.rs src/bin/sqv4_convert.rs; do
    if [ ! -f "$reference/$file" ]; then
        echo "$me: no $file in $reference: set SRC32 to the folder of the reference sources" >&2
        exit 2
    fi
done
if ! command -v rustc >/dev/null 2>&1; then
    echo "$me: rustc is not installed" >&2
    exit 2
fi
reference=$(CDPATH= cd -- "$reference" && pwd)
sqv4=$reference/src/devices/sgu/sqv4.rs
wav=$reference/src/wav.rs
convert=$reference/src/bin/sqv4_convert.rs
mkdir -p "$out"

# keep FILE: standard input becomes FILE, which keeps its date where the text is the same.
keep() {
    cat >"$out/new-$$"
    if cmp -s "$out/new-$$" "$1"; then rm "$out/new-$$"; else mv "$out/new-$$" "$1"; fi
}

# stale FILE SOURCE..: FILE is missing or older than one of its sources. What the toolchain leaves in a crate's out/ is no source.
stale() {
    built=$1
    shift
    [ ! -f "$built" ] || [ -n "$(find "$@" -name out -prune -o -newer "$built" -print)" ]
}

# compile FILE ARGUMENT..: under another name first, so that a build which fails leaves no new file. Overflow checks
# are on: a sum of the reference that wraps stops the program instead of passing for an answer.
checks=yes
compile() {
    built=$1
    shift
    rustc --edition 2024 -C opt-level=3 -C "overflow-checks=$checks" -o "$out/new-$$" "$@" >&2
    mv "$out/new-$$" "$built"
}

# The reference's two modules by their full paths, for include! in src.
ORACLE_SQV4=$out/sqv4_module.rs
ORACLE_WAV=$out/wav_module.rs
ORACLE_CONVERT=$convert
export ORACLE_SQV4 ORACLE_WAV ORACLE_CONVERT
printf '#[path = "%s"]\npub mod sqv4;\n' "$sqv4" | keep "$ORACLE_SQV4"
printf '#[path = "%s"]\npub mod wav;\n' "$wav" | keep "$ORACLE_WAV"

# stale_program FILE SOURCE..: the same for what is made of src, the reference and these sources.
stale_program() {
    stale "$@" "$ours" "$ORACLE_SQV4" "$ORACLE_WAV" "$sqv4" "$wav" "$convert"
}

# compile_converter FILE ARGUMENT..: with the crates that the reference's converter names.
compile_converter() {
    if stale_program "$out/libtracing.rlib"; then
        compile "$out/libcpt32.rlib" --crate-type rlib --crate-name cpt32 "$ours/cpt32.rs"
        compile "$out/libtracing.rlib" --crate-type rlib --crate-name tracing "$ours/tracing.rs"
    fi
    compile "$@" --extern "cpt32=$out/libcpt32.rlib" --extern "tracing=$out/libtracing.rlib"
}

# The reference's converter, as target/oracle/sqv4_convert.
reference_converter() {
    if stale_program "$out/sqv4_convert"; then
        compile_converter "$out/sqv4_convert" "$convert"
    fi
}

# The proved code as an archive.
proved_archive() {
    archive=$top/target/staticlib/libpostlapse.a
    if stale "$archive" "$top/crates"; then
        "$top/tools/build" library >"$out/staticlib.log" 2>&1 || { cat "$out/staticlib.log" >&2; exit 2; }
    fi
}
