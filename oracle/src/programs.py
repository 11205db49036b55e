# Run by oracle/programs. Each program reads a file and writes one in the same folder; the best time of RUNS (15) counts, the programs
# taking turns. Ours also waits until its file is written back, which the others do not; as a pipe it does not either. `calls` is what the
# library's calls take of it.
import os
import shutil
import subprocess
import sys
import tempfile
import time

ours, reference, calls, sound = sys.argv[1:5]
sound = os.path.abspath(sound)
runs = int(sys.argv[5]) if len(sys.argv) > 5 else 15


def turns(commands):
    """The best time of each command."""
    best = {}
    for _ in range(runs):
        for name, command in commands.items():
            begun = time.perf_counter()
            run = subprocess.run(command, check=True, stdout=subprocess.PIPE, stderr=subprocess.DEVNULL)
            took = float(run.stdout) if command[0] == calls else time.perf_counter() - begun
            best[name] = min(best.get(name, took), took)
    return best


def told(heading, best, first):
    print(heading)
    for name, took in best.items():
        print(f"  {name:32} {1000 * took:8.1f} ms {took / best[first]:6.2f}")


def main():
    with tempfile.TemporaryDirectory() as folder:
        os.chdir(folder)
        shutil.copy(sound, "in.wav")
        encodings = {}
        for number, v in enumerate(("H", "L", "L+")):
            encodings[f"postlapse encode -v {v}"] = [ours, "encode", "-f", "in.wav", "-v", v, "-o", f"{number}.sqv4"]
        encodings["postlapse encode, as a pipe"] = ["sh", "-c", f"'{ours}' encode - <in.wav >pipe.sqv4"]
        encodings["  of it the library's calls, H"] = [calls, "encode", "0", "in.wav"]
        for v in ("H", "L", "L+"):
            encodings[f"the reference's converter, {v}"] = [reference, "in.wav", "theirs.sqv4", v]
        if shutil.which("opusenc"):
            encodings["opusenc"] = ["opusenc", "--quiet", "in.wav", "out.opus"]
        if shutil.which("flac"):
            encodings["flac"] = ["flac", "--silent", "--force", "in.wav", "-o", "out.flac"]
        told("encode: best time, and as a multiple of ours (H)", turns(encodings), "postlapse encode -v H")
        decodings = {"postlapse decode": [ours, "decode", "-f", "0.sqv4", "-o", "0.wav"]}
        decodings["postlapse decode, as a pipe"] = ["sh", "-c", f"'{ours}' decode - <0.sqv4 >pipe.wav"]
        decodings["  of it the library's calls"] = [calls, "decode", "0.sqv4"]
        if shutil.which("sox"):
            subprocess.run(["sox", "in.wav", "-e", "ima-adpcm", "ima.wav"], check=True)
            decodings["sox, of IMA ADPCM"] = ["sox", "ima.wav", "-b", "16", "-e", "signed-integer", "sox.wav"]
        if shutil.which("ffmpeg"):
            subprocess.run(["ffmpeg", "-v", "error", "-y", "-i", "in.wav", "-c:a", "adpcm_ima_wav", "ffima.wav"], check=True)
            decodings["ffmpeg, of IMA ADPCM"] = ["ffmpeg", "-v", "error", "-y", "-i", "ffima.wav", "-c:a", "pcm_s16le", "ff.wav"]
        told("decode: best time, and as a multiple of ours", turns(decodings), "postlapse decode")
        copies = {"reading and writing, dd with fsync": ["dd", "if=in.wav", "of=copy.wav", "bs=1M", "conv=fsync"]}
        copies["the same without fsync"] = ["dd", "if=in.wav", "of=copy.wav", "bs=1M"]
        told("the file's reading and writing alone", turns(copies), "reading and writing, dd with fsync")


main()
