/* Plays two streams as a lift module does: from bytes in its memory, a fragment at a time, with a state for each channel; no heap, no
 * file, and never a whole stream decoded before it sounds. What is played is held against the recorded samples, and against what
 * postlapse_decode makes of the stream. The exit status is 1 where something is wrong. */
#include <postlapse.h>
#include <stdio.h>
#include <string.h>

enum { HEADER = 16, CHANNELS = 2, MOST_FRAME = 64, MOST_SAMPLES = 126 };

/* Records 109 and 47, from 0, of crates/replay/data/decode: a stream each, and the samples that the reference Rust decodes of it, left and
 * right in turn. The first is of version 2, variant L, 126 samples a channel; the second of version 3, variant H, 65 a channel. */
static const uint8_t version_2[] = {
    83, 81, 86, 52, 2, 1, 2, 0, 64, 31, 0, 0, 126, 0, 0, 0, 101, 220, 59, 226, 5, 121, 23, 155, 215, 164, 14, 254,
    45, 201, 107, 173, 219, 105, 123, 68, 61, 8, 66, 28, 224, 34, 82, 210, 163, 251, 237, 94, 101, 98, 157, 213, 64, 121, 164, 237,
    159, 199, 95, 230, 45, 204, 115, 41, 70, 138, 201, 121, 75, 11, 14, 100, 63, 238, 247, 8, 31, 101, 48, 180, 5, 204, 17, 230,
    69, 63, 87, 227, 205, 18, 2, 255, 76, 34, 92, 30, 231, 145, 161, 129, 239, 5, 174, 57, 106, 6, 96, 220, 10, 216, 113, 68,
    16, 160, 23, 2
};
static const int16_t version_2_sound[] = {
    0, 0, 1, 1, -2, 2, -5, 3, 3, 2, 1, -1, 3, 0, -10, -2,
    -20, 3, -16, -7, -20, -27, -24, -53, -47, -90, -76, -123, -102, -216, -91, -99,
    -26, -202, 90, -244, -57, -130, 246, 6, 15, -270, 294, 135, 632, -696, 223, -907,
    -599, -1481, 123, -323, 415, 2050, -1440, 2597, -4730, 2100, 1097, 4357, 11423, 1627, 12978, 4368,
    12978, 3822, 12978, 3326, 1622, 1069, -3244, -1661, -11355, -4369, -3244, -4369, 8111, -4369, 3244, -4369,
    12978, -4369, 12978, -3822, 1622, -4369, 0, -4369, -7375, -4369, -12978, -4369, -12978, -2879, -1622, -4369,
    -3245, -4369, -1770, -4369, -5793, -3822, -12978, -4369, -1622, -4369, 0, -4369, 7374, -4369, 8997, -893,
    12978, 745, 12978, -893, 12978, -346, 4867, 3129, 9734, 2582, 11356, 2086, 12831, 4343, 3444, 3797,
    16540, 24757, -6059, 32767, -15745, 32767, -25430, 32767, -25828, 32767, -25828, 32767, -9686, 6697, -6458, 27176,
    -21135, 6697, -11449, 32767, -8221, 28671, 6456, 32767, -9685, 12288, -25828, 32767, -25828, 28671, -16143, 24947,
    -25828, 32767, -25828, 28671, -25828, 10050, -3229, 14146, -25828, 17870, -16143, -5830, 0, 22841, 3227, -5830,
    -17321, -18118, 5278, -14022, 2049, -10298, 16727, -32768, 584, -12289, 3813, 16382, 878, -4097, 8884, 8191,
    5655, 28670, -9022, 16382, -25164, 28670, -9022, 32767, -5793, 32767, -2858, 32767, 15823, 32767, -319, 32767,
    9366, 28671, 25508, 32767, 25828, 32767, 25828, 20479, 9685, 24575, 25828, 28299, 25828, 11370, 25828, -9109,
    3228, 3179, -19370, -17300, -22599, -5012, -2050, 15467, -11736, 11371, -25828, 15095, -22600, 11709, -25828, 14787,
    -25828, 17585, -16143, 15041, 6456, 3478, 16142, 27178, 25828, 32767, 22599, 28671
};

static const uint8_t version_3[] = {
    83, 81, 86, 52, 3, 0, 2, 0, 64, 31, 0, 0, 65, 0, 0, 0, 77, 63, 130, 254, 224, 198, 13, 74, 150, 204, 116, 251,
    135, 244, 166, 114, 94, 226, 216, 9, 36, 47, 45, 101, 225, 129, 131, 95, 68, 69, 146, 211, 169, 7, 30, 46, 130, 21, 206, 226,
    77, 54, 156, 47, 40, 98, 124, 90, 151, 10, 131, 8, 64, 181, 110, 140, 168, 133, 253, 135, 216, 173, 245, 234, 175, 217, 123, 12,
    131, 53, 235, 0, 0, 0, 0, 0, 0, 0, 0, 0, 0, 0, 0, 0, 0, 0, 0, 0, 0, 0, 0, 0, 0, 0, 0, 0,
    0, 0, 0, 0, 0, 0, 255, 87, 65, 0, 0, 0, 0, 0, 0, 0, 0, 0, 0, 0, 0, 0, 0, 0, 0, 0, 0, 0,
    0, 0, 0, 0, 0, 0, 0, 0, 0, 0, 0, 0
};
static const int16_t version_3_sound[] = {
    571, 44, 467, 36, -759, 116, -3266, 148, -2908, 22, -7142, -132, 360, -29, -8841, -274,
    -9895, -641, -8658, -201, -9895, 568, -694, 1303, 9894, 444, 6184, 98, -3937, -1475, -9895, -351,
    1236, -555, 9894, 374, 1237, 1218, -9895, 3215, 8657, 766, 7420, 3855, 9894, 1446, -8657, 3855,
    7421, 3855, 1237, 2410, 6860, 219, 9894, 617, -6184, 3152, 7421, 2822, 9894, 2523, -4725, 2795,
    -5962, 3042, -9895, 3855, -9895, 3855, -8770, 1067, 431, -3640, 6614, 2624, -9895, -1713, -3711, -2195,
    -9895, -2633, -3711, -3855, 8659, 128, 9894, -354, 9894, -3855, -4725, -3855, -1015, 3373, -2140, 2891,
    5016, 2453, 4087, -1929, -8586, -3855, 5018, -3855, 9894, 964, 9894, -3855, 9894, -3855, 9894, -3855,
    9894, -3855, 6521, -3855, 9894, -3855, -329, -3855, -4038, -3855, -9661, 2717, 5674, -1620, -523, 11172,
    -1408, 32767
};

struct stream {
    const uint8_t *bytes;
    size_t size;
    const int16_t *sound;
};

/* A stream that was inspected: what is needed to find each of its fragments. */
struct player {
    const struct stream *stream;
    postlapse_header_answer header;
    size_t fragment;
    size_t frames;
    uint32_t frame;
    postlapse_state state[CHANNELS];
    size_t wrong[CHANNELS];
};

static int failed = 0;

static void expect(int holds, const char *what) {
    if (!holds) {
        printf("wrong: %s\n", what);
        failed = 1;
    }
}

/* Where samples sound. A module hands them to its output of this channel; here those that are not the recorded ones are counted. */
static void play(struct player *p, size_t frame, uint8_t channel, const int16_t *samples, uint32_t count) {
    const int16_t *recorded = p->stream->sound + frame * p->frame * CHANNELS + channel;
    for (uint32_t i = 0; i < count; i++) {
        p->wrong[channel] += samples[i] != recorded[i * CHANNELS];
    }
}

/* Makes ready to play a stream, once for each. Inspection reads it through and takes no memory; a stream that it refuses is not played. */
static int ready(struct player *p, const struct stream *s) {
    memset(p, 0, sizeof *p); /* each channel starts at predictor 0, index 0 */
    p->stream = s;
    p->header = postlapse_inspect(s->bytes, s->size);
    if (p->header.refusal != POSTLAPSE_DONE || p->header.channels != CHANNELS) {
        printf("not played: %s\n", postlapse_words(p->header.refusal));
        return 0;
    }
    p->fragment = postlapse_fragment_size(p->header.version, p->header.variant).first;
    p->frames = postlapse_frame_count(p->header.version, p->header.samples).first;
    p->frame = p->header.version == 3 ? 63 : 64;
    return 1;
}

/* Plays a channel's fragment of a frame, from this state. A module leaves the frame silent where it is refused. */
static void play_fragment(struct player *p, size_t frame, uint8_t channel, postlapse_state *state) {
    int16_t samples[MOST_FRAME];
    uint32_t left = p->header.samples - (uint32_t)frame * p->frame;
    uint32_t count = left < p->frame ? left : p->frame;
    const uint8_t *fragment = p->stream->bytes + HEADER + (frame * p->header.channels + channel) * p->fragment;
    postlapse_answer a =
        postlapse_decode_fragment_lent(p->header.version, p->header.variant, state, fragment, p->fragment, samples, count);
    if (a.refusal != POSTLAPSE_DONE) {
        printf("frame %zu, channel %u: %s\n", frame, channel, postlapse_words(a.refusal));
        failed = 1;
        memset(samples, 0, sizeof samples);
    }
    play(p, frame, channel, samples, count);
}

static void tell(const char *what, const struct player *p) {
    printf("%s: %zu frames, fragments of %zu bytes; samples wrong: left %zu, right %zu of %u\n", what, p->frames, p->fragment, p->wrong[0],
           p->wrong[1], p->header.samples);
}

int main(void) {
    static const struct stream streams[] = {
        {version_2, sizeof version_2, version_2_sound},
        {version_3, sizeof version_3, version_3_sound},
    };
    static int16_t whole[MOST_SAMPLES * CHANNELS];
    struct player p;

    expect(postlapse_version() == POSTLAPSE_VERSION, "header and archive are of one version");

    /* version 2: a channel's fragments in file order, each from the state that the one before left */
    if (!ready(&p, &streams[0])) {
        return 1;
    }
    for (size_t frame = 0; frame < p.frames; frame++) {
        for (uint8_t channel = 0; channel < CHANNELS; channel++) {
            play_fragment(&p, frame, channel, &p.state[channel]);
        }
    }
    tell("version 2, a state for each channel", &p);
    expect(p.wrong[0] == 0 && p.wrong[1] == 0, "version 2");

    /* one state for both channels, the fault that cost a maker the handover: right goes on where left ended, and is wrong */
    ready(&p, &streams[0]);
    for (size_t frame = 0; frame < p.frames; frame++) {
        for (uint8_t channel = 0; channel < CHANNELS; channel++) {
            play_fragment(&p, frame, channel, &p.state[0]);
        }
    }
    tell("version 2, one state for both, a fault", &p);
    expect(p.wrong[1] != 0, "the fault is seen");

    /* version 3: each fragment starts anew, so any order will do; here from the last frame to the first, right before left */
    if (!ready(&p, &streams[1])) {
        return 1;
    }
    for (size_t frame = p.frames; frame-- > 0;) {
        for (uint8_t channel = CHANNELS; channel-- > 0;) {
            play_fragment(&p, frame, channel, &p.state[channel]);
        }
    }
    tell("version 3, from the end to the front", &p);
    expect(p.wrong[0] == 0 && p.wrong[1] == 0, "version 3");

    /* the whole-stream decoder gives the same, and the length is the one that the header says */
    for (size_t i = 0; i < 2; i++) {
        postlapse_header_answer h = postlapse_decode(streams[i].bytes, streams[i].size, whole, MOST_SAMPLES * CHANNELS);
        expect(h.refusal == POSTLAPSE_DONE && memcmp(whole, streams[i].sound, (size_t)h.samples * CHANNELS * sizeof *whole) == 0,
               "the whole stream");
        expect(postlapse_stream_length(h.version, h.variant, h.channels, h.samples).first == streams[i].size, "the stream's length");
    }

    /* refusals: a stream cut short is not played, and a fragment that is refused leaves state and samples as they were */
    struct stream cut = {version_2, sizeof version_2 - 1, version_2_sound};
    expect(!ready(&p, &cut) && p.header.refusal == POSTLAPSE_INVALID_FILE_LENGTH, "a stream cut short");
    postlapse_state state = {5, 6};
    int16_t sample = 7;
    postlapse_answer a = postlapse_decode_fragment_lent(2, POSTLAPSE_VARIANT_L, &state, version_2 + HEADER, 24, &sample, 1);
    printf("a fragment of 24 bytes: refused %zu, %s\n", a.refusal, postlapse_words(a.refusal));
    expect(a.refusal == POSTLAPSE_INVALID_FRAGMENT && state.predictor == 5 && state.index == 6 && sample == 7, "a fragment cut short");
    return failed;
}
