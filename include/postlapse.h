/* Postlapse: the SQV4 voice codec and 16-bit WAV files, for C.
 *
 * Link with libpostlapse.a (`tools/build library` writes it to target/staticlib). The archive is for x86-64 Linux and a processor
 * of level x86-64-v2 (SSE4.2), which it does not check, and needs nothing of others but memcpy and memset.
 *
 * Each call answers for every input, by value. It takes no heap, keeps nothing between calls, and may run in several threads at
 * once. Where `refusal` is 0 the call has done what it says; it fills its output from the front, and later places stay as they
 * were. Where `refusal` is not 0 it is a number of the table below, and the call has written nothing to the caller's memory.
 *
 * The caller's duty, from which the proofs start: each pointer is valid for as many elements as the length behind it says (elements,
 * not bytes), aligned, and not null even where that length is 0; no output or state overlaps anything else that is passed; and nobody
 * else writes any of it during the call. Tried beside that, and not proved: a null pointer with length 0, 16-bit numbers at an odd
 * address and a state that is not aligned gave the right answers; a null state faults; an output that overlaps an input gets wrong
 * samples, but nothing outside of both is touched.
 *
 * What a call refuses, with the numbers that it returns in `first` and `second` (0 where there are none):
 *
 *    1  channels not 1 or 2                               first: the count
 *    2  rate 0
 *    3  odd sample total in stereo
 *    4  over 4,294,967,295 samples a channel
 *    5  stream under 16 bytes
 *    6  stream does not begin with "SQV4"
 *    7  version outside 1..3                              first: the byte
 *    8  variant above 2                                   first: the byte
 *    9  reserved byte not 0                               first: the byte
 *   10  wrong stream length                               first: the length expected, second: the actual one
 *   11  a fragment's index above 88                       first: the byte
 *   12  a nonzero unused bit
 *   13  output too short                                  first: the length needed, in elements of the output
 *   14  fragment not its exact size, or output too long for it
 *   15  versions 1, 2: predictor outside 16 bits or index above 88
 *   20  not RIFF/WAVE, or under 12 bytes
 *   21  RIFF end below 12 or past the data
 *   22  under 8 bytes for a chunk header
 *   23  a chunk, with its pad byte, past the RIFF end
 *   24  second fmt chunk, or one under 16 bytes
 *   25  second data chunk
 *   26  no fmt chunk
 *   27  encoding not PCM, or not 16 bits a sample
 *   28  WAV channels not 1 or 2
 *   29  WAV rate 0
 *   30  byte rate over 32 bits
 *   31  byte rate or alignment inconsistent
 *   32  no data chunk
 *   33  partial frame at the end of the data
 *   34  to be written: channels not 1 or 2
 *   35  to be written: data bytes over 32 bits
 *   36  to be written: data bytes + 36 over 32 bits
 *   37  to be written: byte rate over 32 bits
 *   40  strict: fmt chunk neither 16 nor 18 bytes long
 *   41  strict: data before fmt
 *   42  strict: bytes after the RIFF end
 *
 * Where several hold, the call's own comment has the order in which they are looked for. */
#ifndef POSTLAPSE_H
#define POSTLAPSE_H

#include <stddef.h>
#include <stdint.h>

#if !defined(__x86_64__)
#error "libpostlapse.a is for x86-64"
#endif

#ifdef __cplusplus
extern "C" {
#endif

/* The version of this header: 10000 for 1.0.0 (major * 10000 + minor * 100 + patch). */
#define POSTLAPSE_VERSION 10000

/* The variant, as the byte of a stream: codes of 4 bits (H) or of 3 bits (L, L+). */
#define POSTLAPSE_VARIANT_H 0
#define POSTLAPSE_VARIANT_L 1
#define POSTLAPSE_VARIANT_L_PLUS 2

/* A name for each number of the table above. An answer's `refusal` holds one of these numbers. */
enum postlapse_refusal {
    POSTLAPSE_DONE = 0,
    POSTLAPSE_INVALID_CHANNELS = 1,
    POSTLAPSE_ZERO_SAMPLE_RATE = 2,
    POSTLAPSE_MISALIGNED_INTERLEAVED_SAMPLES = 3,
    POSTLAPSE_TOO_MANY_SAMPLES = 4,
    POSTLAPSE_TRUNCATED_HEADER = 5,
    POSTLAPSE_INVALID_MAGIC = 6,
    POSTLAPSE_UNSUPPORTED_VERSION = 7,
    POSTLAPSE_INVALID_VARIANT = 8,
    POSTLAPSE_INVALID_RESERVED_BYTE = 9,
    POSTLAPSE_INVALID_FILE_LENGTH = 10,
    POSTLAPSE_INVALID_STEP_INDEX = 11,
    POSTLAPSE_NON_ZERO_PADDING = 12,
    POSTLAPSE_OUTPUT_TOO_SHORT = 13,
    POSTLAPSE_INVALID_FRAGMENT = 14,
    POSTLAPSE_INVALID_STATE = 15,
    POSTLAPSE_NOT_WAVE = 20,
    POSTLAPSE_RIFF_END = 21,
    POSTLAPSE_CHUNK_HEADER = 22,
    POSTLAPSE_CHUNK_END = 23,
    POSTLAPSE_FORMAT_CHUNK = 24,
    POSTLAPSE_DATA_CHUNK = 25,
    POSTLAPSE_NO_FORMAT = 26,
    POSTLAPSE_ENCODING = 27,
    POSTLAPSE_WAVE_CHANNELS = 28,
    POSTLAPSE_ZERO_WAVE_RATE = 29,
    POSTLAPSE_BYTE_RATE = 30,
    POSTLAPSE_INCONSISTENT = 31,
    POSTLAPSE_NO_DATA = 32,
    POSTLAPSE_PARTIAL_FRAME = 33,
    POSTLAPSE_WRITER_CHANNELS = 34,
    POSTLAPSE_DATA_SIZE = 35,
    POSTLAPSE_RIFF_SIZE = 36,
    POSTLAPSE_WRITER_BYTE_RATE = 37,
    POSTLAPSE_STRICT_FORMAT = 40,
    POSTLAPSE_STRICT_ORDER = 41,
    POSTLAPSE_STRICT_END = 42
};

/* A count or a refusal: `first` is how many elements were written where `refusal` is 0, or the number that was asked for. */
typedef struct {
    size_t refusal;
    size_t first;
    size_t second;
} postlapse_answer;

/* A header or a refusal; on a refusal the header's fields are 0. `samples` is the count of each channel. */
typedef struct {
    size_t refusal;
    size_t first;
    size_t second;
    uint8_t version;
    uint8_t variant;
    uint8_t channels;
    uint32_t rate;
    uint32_t samples;
} postlapse_header_answer;

/* What a WAV file says: its `size` bytes of samples begin at byte `start` of the caller's own file. Zeros on a refusal. */
typedef struct {
    size_t refusal;
    uint16_t channels;
    uint32_t rate;
    size_t start;
    size_t size;
} postlapse_wave_answer;

/* A count or a refusal as in postlapse_answer, and the channel's state after the call: on a refusal the one that was given. */
typedef struct {
    size_t refusal;
    size_t first;
    int32_t predictor;
    size_t index;
} postlapse_fragment_answer;

/* A channel's decoder state. A stream starts each channel at 0, 0. */
typedef struct {
    int32_t predictor;
    size_t index;
} postlapse_state;

/* The version of the archive, to compare with POSTLAPSE_VERSION. */
uint32_t postlapse_version(void);

/* The words of the table above for a number. It is defined in libpostlapse_words.a, from c/words.c, which no other call needs. 0 is
 * "done", 38, which the programs alone print, has words too, and any other number is "unknown refusal": the answer is never null. */
const char *postlapse_words(size_t refusal);

/* Bytes of a fragment, in `first`. Those of version 3 have 34 bytes (H) or 26 (L, L+); in versions 1 and 2 fragments have 33 bytes (H) or
 * 25 (L, L+). Refuses 8, 7, in this order. */
postlapse_answer postlapse_fragment_size(uint8_t version, uint8_t variant);

/* Frames of a stream of `samples` samples a channel, in `first`. A frame holds 63 samples per channel in version 3, 64 in versions 1
 * and 2, the last one those that remain. Refuses 7. */
postlapse_answer postlapse_frame_count(uint8_t version, uint32_t samples);

/* Bytes of a whole stream of `samples` samples a channel, in `first`: 16 + frames * channels * fragment size.
 * Refuses 8, 7, 1, in this order. */
postlapse_answer postlapse_stream_length(uint8_t version, uint8_t variant, uint8_t channels, uint32_t samples);

/* Encodes interleaved samples into `out`, as a stream of version 3, and answers its length in bytes. A gain of 255 leaves the samples
 * as they are, and 0 silences them. The length is that of postlapse_stream_length; a call with `room` 0 returns it with refusal 13.
 * Refuses 8, 1, 2, 3, 4, 13, in this order. */
postlapse_answer postlapse_encode(const int16_t *pcm, size_t count, uint8_t channels, uint32_t rate, uint8_t variant, uint8_t gain,
                                  uint8_t *out, size_t room);

/* The header of a stream whose header, length and every fragment are sound.
 * Refuses 5, 6, 7, 8, 1, 9, 2, 10, then for each fragment in file order 11 (version 3 only) and 12. */
postlapse_header_answer postlapse_inspect(const uint8_t *file, size_t size);

/* Decodes a whole stream of version 1, 2 or 3 into `out`, samples * channels numbers, interleaved, and answers its header.
 * Refuses as postlapse_inspect does, then 13. */
postlapse_header_answer postlapse_decode(const uint8_t *file, size_t size, int16_t *out, size_t room);

/* Decodes the first `count` samples of one fragment, from its channel's state. Channel c's fragment of frame f, both from 0, begins at
 * byte 16 + (f * channels + c) * fragment size of a stream; postlapse_fragment_size says how long it is. At most a frame's samples are
 * asked for, 63 in version 3, 64 in versions 1 and 2. Versions 1 and 2 answer the state after the last sample, from which the channel's
 * next fragment goes on. Version 3 starts each fragment anew, so that any can be decoded by itself, and answers the given state; an
 * index byte above 88 counts as 88. Refuses 8, 7, 14, 15, in this order. */
postlapse_fragment_answer postlapse_decode_fragment(uint8_t version, uint8_t variant, int32_t predictor, size_t index,
                                                    const uint8_t *fragment, size_t size, int16_t *out, size_t count);

/* The same with the channel's state in the caller's memory: versions 1 and 2 store predictor and index there where they decode. A
 * refusal, and version 3, only read it. */
postlapse_answer postlapse_decode_fragment_lent(uint8_t version, uint8_t variant, postlapse_state *state, const uint8_t *fragment,
                                                size_t size, int16_t *out, size_t count);

/* What a 16-bit WAV file says and where its sample bytes lie; it may have other chunks, and bytes after its RIFF end.
 * Refuses 20 and 21, then 22, 23, 24, 25 where met in the file, then 26 to 33 in order. */
postlapse_wave_answer postlapse_read_wave(const uint8_t *file, size_t size);

/* The same, where the fmt chunk has 16 or 18 bytes (the last two of 18 are ignored) and stands before the data, and nothing stands after
 * the RIFF end. Other chunks may stand anywhere. Refuses what postlapse_read_wave refuses, then 40, 41, 42 in this order. */
postlapse_wave_answer postlapse_read_strict_wave(const uint8_t *file, size_t size);

/* Sample bytes, as a WAV file has them, to `size` / 2 numbers, and how many there are. Refuses 13. */
postlapse_answer postlapse_load_samples(const uint8_t *bytes, size_t size, int16_t *out, size_t room);

/* Writes a WAV file of the interleaved samples to `out`, 44 + 2 * `count` bytes, and answers its length. Rate 0 and a partial frame are
 * accepted. Refuses 34, 35, 36, 37, 13, in this order. */
postlapse_answer postlapse_write_wave(uint8_t channels, uint32_t rate, const int16_t *samples, size_t count, uint8_t *out, size_t room);

#ifdef __cplusplus
}
#endif

#endif
