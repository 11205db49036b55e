/* A short tone: encoded, inspected, decoded, one fragment decoded by hand, and the sound written as a WAV file and read back.
 * Prints what the calls answer; the exit status is 1 where an answer is not the expected one. */
#include <postlapse.h>
#include <stdio.h>
#include <string.h>

enum { COUNT = 126, FRAGMENT = 34, ROOM = 512 };

static int failed = 0;

static void expect(int holds, const char *what) {
    if (!holds) {
        printf("wrong: %s\n", what);
        failed = 1;
    }
}

/* A triangle of 32 samples a turn, up to 8000 either way. */
static int16_t tone(int i) {
    int t = i % 32;
    return (int16_t)(t < 16 ? -8000 + 1000 * t : 8000 - 1000 * (t - 16));
}

int main(void) {
    int16_t pcm[COUNT], sound[COUNT], part[63];
    uint8_t stream[ROOM], wave[ROOM];
    for (int i = 0; i < COUNT; i++) {
        pcm[i] = tone(i);
    }

    postlapse_answer asked = postlapse_encode(pcm, COUNT, 1, 8000, POSTLAPSE_VARIANT_H, 255, stream, 0);
    printf("room 0: refused %zu, needed %zu\n", asked.refusal, asked.first);
    expect(asked.refusal == 13 && asked.first == 16 + 2 * FRAGMENT, "the length needed");

    postlapse_answer encoded = postlapse_encode(pcm, COUNT, 1, 8000, POSTLAPSE_VARIANT_H, 255, stream, ROOM);
    printf("encoded: %zu bytes\n", encoded.first);
    expect(encoded.refusal == 0 && encoded.first == asked.first, "the encoding");

    postlapse_header_answer h = postlapse_inspect(stream, encoded.first);
    printf("header: version %u variant %u channels %u rate %u samples %u\n", h.version, h.variant, h.channels, h.rate, h.samples);
    expect(h.refusal == 0 && h.version == 3 && h.variant == POSTLAPSE_VARIANT_H && h.channels == 1 && h.rate == 8000 && h.samples == COUNT,
           "the header");

    postlapse_header_answer cut = postlapse_inspect(stream, encoded.first - 1);
    printf("a byte short: refused %zu, expected %zu, actual %zu\n", cut.refusal, cut.first, cut.second);
    expect(cut.refusal == 10 && cut.first == encoded.first && cut.second == encoded.first - 1 && cut.samples == 0, "the refusal");

    postlapse_header_answer decoded = postlapse_decode(stream, encoded.first, sound, COUNT);
    int far = 0;
    for (int i = 0; i < COUNT; i++) {
        int d = sound[i] < pcm[i] ? pcm[i] - sound[i] : sound[i] - pcm[i];
        far = d < far ? far : d;
    }
    printf("decoded: %u samples, at most %d away\n", decoded.samples, far);
    expect(decoded.refusal == 0 && decoded.samples == COUNT && far < 1000, "the sound");

    /* the second frame by hand: a fragment of version 3 needs nothing that came before */
    const uint8_t *fragment = stream + 16 + FRAGMENT;
    postlapse_fragment_answer played = postlapse_decode_fragment(3, POSTLAPSE_VARIANT_H, 5, 6, fragment, FRAGMENT, part, 63);
    printf("fragment: %zu samples, state %d %zu\n", played.first, played.predictor, played.index);
    expect(played.refusal == 0 && played.first == 63 && played.predictor == 5 && played.index == 6, "the fragment");
    expect(memcmp(part, sound + 63, sizeof part) == 0, "the fragment's samples");

    /* the same bytes as a fragment of version 2, which goes on from a state and has no index byte: the state moves */
    postlapse_state state = {0, 0};
    postlapse_answer legacy = postlapse_decode_fragment_lent(2, POSTLAPSE_VARIANT_H, &state, fragment, FRAGMENT - 1, part, 63);
    played = postlapse_decode_fragment(2, POSTLAPSE_VARIANT_H, 0, 0, fragment, FRAGMENT - 1, part, 63);
    printf("version 2: %zu samples, state %d %zu\n", legacy.first, state.predictor, state.index);
    expect(legacy.refusal == 0 && legacy.first == 63 && state.predictor == played.predictor && state.index == played.index,
           "the state lent and by value");
    legacy = postlapse_decode_fragment_lent(2, 3, &state, fragment, FRAGMENT - 1, part, 63);
    printf("variant 3: refused %zu, byte %zu\n", legacy.refusal, legacy.first);
    expect(legacy.refusal == 8 && legacy.first == 3 && state.predictor == played.predictor && state.index == played.index,
           "the state after a refusal");

    postlapse_answer written = postlapse_write_wave(1, 8000, sound, COUNT, wave, ROOM);
    postlapse_wave_answer read = postlapse_read_strict_wave(wave, written.first);
    printf("wave: %zu bytes, %u channels, rate %u, samples in %zu bytes from %zu\n", written.first, read.channels, read.rate, read.size,
           read.start);
    expect(written.refusal == 0 && read.refusal == 0 && read.channels == 1 && read.rate == 8000 && read.start == 44, "the WAV file");
    postlapse_answer loaded = postlapse_load_samples(wave + read.start, read.size, pcm, COUNT);
    expect(loaded.refusal == 0 && loaded.first == COUNT && memcmp(pcm, sound, sizeof pcm) == 0, "the WAV file's samples");
    expect(postlapse_read_wave(wave, 11).refusal == 20, "a WAV file cut short");
    return failed;
}
