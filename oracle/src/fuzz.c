/* What oracle/fuzz gives to libFuzzer: the calls of include/postlapse.h on any bytes, in guarded memory, held against
 * each other. The reference has no part in it. */
#include "postlapse.h"
#include <stdio.h>
#include <stdlib.h>
#include <string.h>
#include <sys/mman.h>

#define HOLDS(condition) ((condition) ? (void)0 : fail(#condition, __LINE__))

static void fail(const char *condition, int line)
{
    fprintf(stderr, "fuzz.c:%d: does not hold: %s\n", line, condition);
    abort();
}

/* ---- memory */

enum { PAGE = 4096, SPAN = 64 * PAGE, MARGIN = 64 };

/* Where what is lent lies in its pages: at their end, or at their beginning. Beyond that nobody may touch anything. */
static int at_end;

/* The pages of inputs, of outputs and of a state; the fragments of a stream are lent beside it. */
static uint8_t *inputs, *fragments, *outputs, *others, *states;

static void allow(uint8_t *pages, int access)
{
    if (mprotect(pages, SPAN, access) != 0) abort();
}

static uint8_t *new_pages(void)
{
    uint8_t *all = mmap(NULL, SPAN + 2 * PAGE, PROT_NONE, MAP_PRIVATE | MAP_ANONYMOUS, -1, 0);
    if (all == MAP_FAILED) abort();
    return all + PAGE;
}

static uint8_t *place(uint8_t *pages, size_t size)
{
    HOLDS(size + MARGIN <= SPAN);
    return at_end ? pages + SPAN - size : pages;
}

/* A copy that can only be read. */
static const void *lend(uint8_t *pages, const void *bytes, size_t size)
{
    allow(pages, PROT_READ | PROT_WRITE);
    uint8_t *at = place(pages, size);
    memcpy(at, bytes, size);
    allow(pages, PROT_READ);
    return at;
}

/* What stands in an output before the call. */
static uint8_t before(size_t at)
{
    return (uint8_t)(at * 167 + 91);
}

/* An output, and a margin on the side that has no guard page. */
static void *output(uint8_t *pages, size_t size)
{
    allow(pages, PROT_READ | PROT_WRITE);
    uint8_t *first = place(pages, size) - (at_end ? MARGIN : 0);
    for (size_t at = 0; at < size + MARGIN; at++) first[at] = before(at);
    return place(pages, size);
}

/* Behind the first `written` bytes of an output, and in its margin, all is as it was. */
static int kept(uint8_t *pages, size_t size, size_t written)
{
    uint8_t *first = place(pages, size) - (at_end ? MARGIN : 0);
    size_t start = at_end ? MARGIN : 0;
    for (size_t at = 0; at < size + MARGIN; at++)
        if ((at < start || at >= start + written) && first[at] != before(at)) return 0;
    return 1;
}

/* ---- answers */

static int same(postlapse_answer a, postlapse_answer b)
{
    return a.refusal == b.refusal && a.first == b.first && a.second == b.second;
}

static int same_header(postlapse_header_answer a, postlapse_header_answer b)
{
    return a.refusal == b.refusal && a.first == b.first && a.second == b.second && a.version == b.version
        && a.variant == b.variant && a.channels == b.channels && a.rate == b.rate && a.samples == b.samples;
}

static int same_wave(postlapse_wave_answer a, postlapse_wave_answer b)
{
    return a.refusal == b.refusal && a.channels == b.channels && a.rate == b.rate && a.start == b.start
        && a.size == b.size;
}

static postlapse_answer answer_of(size_t refusal, size_t first)
{
    return (postlapse_answer){ refusal, first, 0 };
}

/* ---- the bytes of an input as parameters */

typedef struct {
    const uint8_t *at;
    size_t left;
} bytes;

static uint8_t byte(bytes *from)
{
    if (from->left == 0) return 0;
    from->left--;
    return *from->at++;
}

static uint32_t word(bytes *from)
{
    uint32_t value = 0;
    for (int at = 0; at < 4; at++) value |= (uint32_t)byte(from) << (8 * at);
    return value;
}

/* Mostly a number of the first `count`, at times any byte. */
static uint8_t small(bytes *from, uint8_t first, uint8_t count)
{
    uint8_t value = byte(from);
    return value < 240 ? first + value % count : value;
}

/* A room that does not suffice, or just does, or is more than needed. */
static size_t room_for(bytes *from, size_t needed)
{
    switch (byte(from) % 4) {
    case 0: return 0;
    case 1: return needed == 0 ? 0 : needed - 1;
    case 2: return needed;
    default: return needed + 5;
    }
}

static size_t fragment_size(uint8_t version, uint8_t variant)
{
    size_t codes = variant == 0 ? 32 : 24;
    return version == 3 ? 2 + codes : 1 + codes;
}

static size_t frame_samples(uint8_t version)
{
    return version == 3 ? 63 : 64;
}

/* ---- one fragment */

static size_t fragment_refusal(uint8_t version, uint8_t variant, postlapse_state state, size_t size, size_t count)
{
    if (variant > 2) return 8;
    if (version < 1 || version > 3) return 7;
    if (size != fragment_size(version, variant) || count > frame_samples(version)) return 14;
    int in_range = state.predictor >= -32768 && state.predictor <= 32767 && state.index <= 88;
    return version != 3 && !in_range ? 15 : 0;
}

/* Both fragment decoders: they agree, and write a state only where versions 1 and 2 give a result. The samples stand in
 * `outputs` afterwards, and the state is returned. */
static postlapse_state play(uint8_t version, uint8_t variant, postlapse_state state, const void *from, size_t size,
                            size_t count)
{
    size_t refusal = fragment_refusal(version, variant, state, size, count);
    size_t first = refusal == 8 ? variant : refusal == 7 ? version : refusal == 0 ? count : 0;
    const uint8_t *fragment = lend(fragments, from, size);

    int16_t *out = output(outputs, 2 * count);
    if (refusal != 0) allow(outputs, PROT_READ);
    postlapse_fragment_answer by_value =
        postlapse_decode_fragment(version, variant, state.predictor, state.index, fragment, size, out, count);
    HOLDS(by_value.refusal == refusal && by_value.first == first);
    HOLDS(kept(outputs, 2 * count, refusal == 0 ? 2 * count : 0));

    int16_t *other = output(others, 2 * count);
    if (refusal != 0) allow(others, PROT_READ);
    postlapse_state *lent = (postlapse_state *)lend(states, &state, sizeof state);
    if (refusal == 0 && version != 3) allow(states, PROT_READ | PROT_WRITE);
    postlapse_answer answer = postlapse_decode_fragment_lent(version, variant, lent, fragment, size, other, count);
    HOLDS(same(answer, answer_of(refusal, first)));
    HOLDS(kept(others, 2 * count, refusal == 0 ? 2 * count : 0));
    HOLDS(lent->predictor == by_value.predictor && lent->index == by_value.index);
    HOLDS(memcmp(out, other, 2 * count) == 0);
    if (refusal != 0 || version == 3) HOLDS(lent->predictor == state.predictor && lent->index == state.index);
    else HOLDS(fragment_refusal(version, variant, *lent, size, count) == 0);
    return *lent;
}

static void any_fragment(bytes from)
{
    uint8_t version = small(&from, 1, 3), variant = small(&from, 0, 3), kind = byte(&from);
    size_t count = byte(&from) % 70;
    postlapse_state state = { (int16_t)word(&from), byte(&from) % 89 };
    if (kind & 1) state.predictor = (int32_t)word(&from);
    if (kind & 2) state.index = (size_t)word(&from) << (kind & 32);
    uint8_t fragment[70] = { 0 };
    size_t size = kind & 4 ? byte(&from) % 70 : fragment_size(version, variant);
    for (size_t at = 0; at < size; at++) fragment[at] = byte(&from);
    play(version, variant, state, fragment, size, count);
}

/* ---- streams */

/* The samples of an accepted stream, one fragment after the other. */
static void check_fragments(postlapse_header_answer header, const uint8_t *file, const int16_t *decoded)
{
    size_t size = fragment_size(header.version, header.variant), most = frame_samples(header.version);
    postlapse_state state[2] = { { 0, 0 }, { 0, 0 } };
    const uint8_t *fragment = file + 16;
    for (size_t first = 0; first < header.samples; first += most) {
        size_t count = header.samples - first < most ? header.samples - first : most;
        for (size_t channel = 0; channel < header.channels; channel++, fragment += size) {
            state[channel] = play(header.version, header.variant, state[channel], fragment, size, count);
            const int16_t *samples = (const int16_t *)place(outputs, 2 * count);
            for (size_t at = 0; at < count; at++)
                HOLDS(samples[at] == decoded[(first + at) * header.channels + channel]);
        }
    }
}

/* Inspection and decoding agree; what is accepted is also decoded by fragments. */
static postlapse_header_answer check_stream(const uint8_t *stream, size_t size, bytes *pick)
{
    const uint8_t *file = lend(inputs, stream, size);
    postlapse_header_answer header = postlapse_inspect(file, size), due = header;
    size_t needed = (size_t)header.samples * header.channels;
    size_t room = room_for(pick, needed);
    if (header.refusal == 0 && room < needed) due = (postlapse_header_answer){ .refusal = 13, .first = needed };
    if (header.refusal != 0) HOLDS(header.version == 0 && header.channels == 0 && needed == 0);

    int16_t *out = output(outputs, 2 * room);
    if (due.refusal != 0) allow(outputs, PROT_READ);
    HOLDS(same_header(postlapse_decode(file, size, out, room), due));
    HOLDS(kept(outputs, 2 * room, due.refusal == 0 ? 2 * needed : 0));
    if (due.refusal == 0) {
        int16_t *decoded = malloc(2 * needed + 1);
        memcpy(decoded, out, 2 * needed);
        check_fragments(header, stream, decoded);
        free(decoded);
    }
    return header;
}

static void any_stream(bytes from)
{
    bytes pick = { from.at, from.left != 0 };
    check_stream(from.at, from.left, &pick);
}

/* A stream with a sound header and as many fragments as that says, which is accepted; or the same with a byte changed
 * or the last one cut off. */
static void sound_stream(bytes from)
{
    static uint8_t stream[16 + 2 * 17 * 34];
    uint8_t damage = byte(&from), value = byte(&from);
    size_t changed = word(&from);
    uint8_t version = 1 + byte(&from) % 3, variant = byte(&from) % 3, channels = 1 + byte(&from) % 2;
    size_t samples = word(&from) % 1050, frames = (samples + frame_samples(version) - 1) / frame_samples(version);
    size_t size = fragment_size(version, variant), most = frame_samples(version);
    bytes pick = from;
    uint8_t header[16] = { 'S', 'Q', 'V', '4', version, variant, channels, 0, 1 };
    header[12] = (uint8_t)samples, header[13] = (uint8_t)(samples >> 8);
    memcpy(stream, header, 16);
    for (size_t frame = 0; frame < frames; frame++) {
        size_t count = samples - frame * most < most ? samples - frame * most : most;
        size_t codes = count * (variant == 0 ? 4 : 3), head = version == 3 ? 2 : 1;
        for (size_t channel = 0; channel < channels; channel++) {
            uint8_t *fragment = stream + 16 + (frame * channels + channel) * size;
            for (size_t at = 0; at < size; at++) fragment[at] = at < head + (codes + 7) / 8 ? byte(&from) : 0;
            if (version == 3) fragment[1] %= 89;
            if (codes % 8 != 0) fragment[head + codes / 8] &= (1 << codes % 8) - 1;
        }
    }
    size_t length = 16 + frames * channels * size;
    if (damage >= 128) stream[changed % (damage & 1 ? 16 : length)] = value;
    postlapse_header_answer answer = check_stream(stream, length - (damage >= 250), &pick);
    if (damage < 128) HOLDS(answer.refusal == 0 && answer.samples == samples && answer.channels == channels);
}

/* What the encoder gives is accepted, and says what was given to it. */
static void any_sound(bytes from)
{
    uint8_t variant = small(&from, 0, 3), channels = small(&from, 1, 2), gain = byte(&from);
    uint32_t rate = byte(&from) == 7 ? 0 : word(&from);
    bytes pick = from;
    byte(&from);
    size_t count = from.left / 2, length = 0, refusal;
    if (variant > 2) refusal = 8;
    else if (channels != 1 && channels != 2) refusal = 1;
    else if (rate == 0) refusal = 2;
    else if (count % channels != 0) refusal = 3;
    else refusal = 0;
    if (refusal == 0) length = 16 + (count / channels + 62) / 63 * channels * fragment_size(3, variant);
    size_t room = room_for(&pick, length);
    if (refusal == 0 && room < length) refusal = 13;
    size_t first = refusal == 8 ? variant : refusal == 1 ? channels : length;

    const int16_t *pcm = lend(inputs, from.at, 2 * count);
    uint8_t *out = output(outputs, room);
    if (refusal != 0) allow(outputs, PROT_READ);
    HOLDS(same(postlapse_encode(pcm, count, channels, rate, variant, gain, out, room), answer_of(refusal, first)));
    HOLDS(kept(outputs, room, refusal == 0 ? length : 0));
    if (refusal == 0) {
        uint8_t *stream = malloc(length);
        memcpy(stream, out, length);
        postlapse_header_answer header = check_stream(stream, length, &pick);
        HOLDS(header.refusal == 0 && header.version == 3 && header.variant == variant && header.channels == channels);
        HOLDS(header.rate == rate && (size_t)header.samples * channels == count);
        free(stream);
    }
}

/* ---- WAV files */

/* The loader gives the bytes as numbers. */
static void check_load(const uint8_t *sample_bytes, size_t size, bytes *pick)
{
    size_t count = size / 2, room = room_for(pick, count), refusal = room < count ? 13 : 0;
    const uint8_t *from = lend(fragments, sample_bytes, size);
    int16_t *out = output(others, 2 * room);
    if (refusal != 0) allow(others, PROT_READ);
    HOLDS(same(postlapse_load_samples(from, size, out, room), answer_of(refusal, count)));
    HOLDS(kept(others, 2 * room, refusal == 0 ? 2 * count : 0));
    if (refusal == 0) HOLDS(memcmp(out, sample_bytes, 2 * count) == 0);
}

/* The strict reader agrees with the plain one or refuses 40, 41, 42; the samples lie within the file. */
static postlapse_wave_answer check_wave(const uint8_t *wave, size_t size, bytes *pick)
{
    const uint8_t *file = lend(inputs, wave, size);
    postlapse_wave_answer plain = postlapse_read_wave(file, size), strict = postlapse_read_strict_wave(file, size);
    if (plain.refusal != 0) {
        HOLDS(plain.refusal >= 20 && plain.refusal <= 33);
        HOLDS(same_wave(plain, (postlapse_wave_answer){ .refusal = plain.refusal }));
        HOLDS(same_wave(plain, strict));
        return strict;
    }
    if (strict.refusal == 0) HOLDS(same_wave(plain, strict));
    else HOLDS(strict.refusal >= 40 && strict.refusal <= 42);
    if (strict.refusal != 0) HOLDS(same_wave(strict, (postlapse_wave_answer){ .refusal = strict.refusal }));
    HOLDS(plain.start >= 20 && plain.start <= size && plain.size <= size - plain.start);
    HOLDS((plain.channels == 1 || plain.channels == 2) && plain.rate != 0 && plain.size % (2 * plain.channels) == 0);
    check_load(wave + plain.start, plain.size, pick);
    return strict;
}

static void any_wave(bytes from)
{
    bytes pick = { from.at, from.left != 0 };
    check_wave(from.at, from.left, &pick);
    check_load(from.at, from.left, &pick);
}

static void put(uint8_t **to, uint32_t value, int size)
{
    for (int at = 0; at < size; at++) *(*to)++ = (uint8_t)(value >> (8 * at));
}

/* The contents of a fmt chunk, each field at times wrong. */
static void put_format(uint8_t **to, bytes *from)
{
    uint8_t wrong = byte(from), channels = 1 + byte(from) % 2;
    uint32_t rate = word(from);
    if (wrong < 128) wrong = 0;
    put(to, wrong & 1 ? byte(from) : 1, 2);
    put(to, wrong & 2 ? byte(from) : channels, 2);
    put(to, wrong & 4 ? 0 : rate, 4);
    put(to, wrong & 8 ? word(from) : rate * channels * 2, 4);
    put(to, wrong & 16 ? byte(from) : channels * 2, 2);
    put(to, wrong & 32 ? byte(from) : 16, 2);
}

/* A file of chunks in any order, with sizes that are mostly theirs. */
static void chunked_wave(bytes from)
{
    static uint8_t file[4096];
    bytes pick = from;
    byte(&from);
    uint8_t *end = file + 12;
    for (int chunks = byte(&from) % 6; chunks > 0; chunks--) {
        uint8_t kind = byte(&from), *head = end;
        end += 8;
        size_t size = kind & 64 ? byte(&from) : 4 * (byte(&from) % 16);
        if (kind % 4 == 0) put_format(&end, &from), size = kind & 128 ? byte(&from) % 40 : 0;
        for (; size > 0; size--) *end++ = byte(&from);
        size = (size_t)(end - head) - 8;
        memcpy(head, kind % 4 == 0 ? "fmt " : kind % 4 == 1 ? "data" : kind % 4 == 2 ? "LIST" : "fact", 4);
        head += 4;
        put(&head, (kind & 63) > 60 ? word(&from) : (uint32_t)size, 4);
        if (size % 2 != 0) *end++ = 0;
    }
    uint8_t last = byte(&from), *head = file;
    memcpy(file, "RIFF    WAVE", 12);
    head += 4;
    put(&head, last > 240 ? word(&from) : (uint32_t)(end - file) - 8 - (last > 220), 4);
    if (last & 1) *end++ = byte(&from);
    check_wave(file, (size_t)(end - file), &pick);
}

/* A file that is written is read back as it was given, or refused where a reader refuses what the writer takes. */
static void written_wave(bytes from)
{
    uint8_t channels = small(&from, 1, 2);
    uint32_t rate = word(&from);
    bytes pick = from;
    byte(&from);
    size_t count = from.left / 2, length = 44 + 2 * count, room = room_for(&pick, length), refusal;
    if (channels != 1 && channels != 2) refusal = 34;
    else if ((uint64_t)rate * channels * 2 > UINT32_MAX) refusal = 37;
    else if (room < length) refusal = 13;
    else refusal = 0;

    const int16_t *samples = lend(inputs, from.at, 2 * count);
    uint8_t *out = output(outputs, room);
    if (refusal != 0) allow(outputs, PROT_READ);
    size_t first = refusal == 0 || refusal == 13 ? length : 0;
    HOLDS(same(postlapse_write_wave(channels, rate, samples, count, out, room), answer_of(refusal, first)));
    HOLDS(kept(outputs, room, refusal == 0 ? length : 0));
    if (refusal == 0) {
        postlapse_wave_answer due = { 0, channels, rate, 44, 2 * count };
        if (rate == 0) due = (postlapse_wave_answer){ .refusal = 29 };
        else if (count % channels != 0) due = (postlapse_wave_answer){ .refusal = 33 };
        uint8_t *file = malloc(length);
        memcpy(file, out, length);
        HOLDS(same_wave(check_wave(file, length, &pick), due));
        HOLDS(memcmp(file + 44, from.at, 2 * count) == 0);
        free(file);
    }
}

/* ---- libFuzzer */

int LLVMFuzzerInitialize(int *count, char ***words)
{
    (void)count, (void)words;
    inputs = new_pages(), fragments = new_pages(), outputs = new_pages(), others = new_pages(), states = new_pages();
    return 0;
}

/* The first byte says what the others are, and on which side the guard pages are. */
int LLVMFuzzerTestOneInput(const uint8_t *data, size_t size)
{
    static void (*const kinds[7])(bytes) = {
        any_stream, sound_stream, any_sound, any_fragment, any_wave, chunked_wave, written_wave,
    };
    bytes from = { data, size };
    uint8_t kind = byte(&from);
    at_end = kind & 1;
    kinds[kind / 2 % 7](from);
    return 0;
}
