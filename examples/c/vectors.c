/* Puts recorded questions to a fragment decoder, and compares every field of its answers: refusal and returned numbers, the state after
 * the call, the samples, and that places behind them are left. The lists are crates/replay/data/fragment, decode and ima; oracle/README.md
 * has their layout ("Answers") and says who answered. A stream of `decode` is played a fragment at a time, with a state for each channel.
 *
 *     vectors LIST..          exit status 1 where an answer differs
 *     vectors wrong LIST..    asks two wrong decoders instead; exit status 1 where one of them is not found out
 *
 * It asks the two fragment decoders of libpostlapse.a. With -DDECODER=name it asks a decoder of your own and nothing else, and needs
 * neither postlapse.h nor the archive, on any processor:
 *
 *     cc -Iinclude examples/c/vectors.c libpostlapse.a -o vectors
 *     cc -DDECODER=my_decoder examples/c/vectors.c my_decoder.c -o vectors
 *
 * No heap. `try_list` takes a list from memory and uses no file, so that a module can call it with a list in its flash. */
#include <stdint.h>
#include <stdio.h>
#include <string.h>

/* A fragment decoder. It answers the refusal, 0 where there is none, and the numbers that are returned with it: first the count of samples
 * or the byte that is refused, second 0. The arguments are those of postlapse_decode_fragment_lent, with the state as two numbers. */
typedef size_t decoder(uint8_t version, uint8_t variant, int32_t *predictor, size_t *index, const uint8_t *fragment, size_t size,
                       int16_t *out, size_t count, size_t returned[2]);

enum { HEADER = 16, DECODE = 3, FRAGMENT = 7, MOST_FRAGMENT = 512, MOST_COUNT = 255, GUARD = 8, MOST_LIST = 1 << 19 };

/* What each place of the output has before a call. */
#define PATTERN ((int16_t)-23131)

struct tally {
    unsigned long results;  /* calls that have a result */
    unsigned long refusals; /* calls that are refused */
    unsigned long results_differ;
    unsigned long refusals_differ;
    unsigned long left_out; /* refused streams and questions of other calls, which a fragment decoder is not asked */
    int broken;             /* the list breaks off, or has a record that is not of this layout */
};

/* Who is asked, and what a list has given so far. */
struct asker {
    decoder *decode;
    const char *who;
    int one_state; /* a fault, on purpose: both channels of a stream from one state */
    unsigned long record; /* from 0 */
    struct tally tally;
    char first[240]; /* the first difference, in words */
};

/* Bytes of which the first `stored` are there, and the rest are zeros. */
struct bytes {
    const uint8_t *at;
    size_t stored;
    size_t size;
};

static uint8_t byte(const struct bytes *b, size_t i) { return i < b->stored && i < b->size ? b->at[i] : 0; }

static uint64_t number(const struct bytes *b, size_t i, size_t bytes) {
    uint64_t n = 0;
    for (size_t k = bytes; k-- > 0;) {
        n = n << 8 | byte(b, i + k);
    }
    return n;
}

static int16_t sample(const struct bytes *b, size_t i) {
    int32_t n = (int32_t)number(b, i, 2);
    return (int16_t)(n < 32768 ? n : n - 65536);
}

/* A state in 17 bytes: a sign, the predictor's magnitude, the index. */
static int32_t predictor_of(const struct bytes *b, size_t i) {
    int64_t magnitude = (int64_t)number(b, i + 1, 8);
    return (int32_t)(byte(b, i) != 0 ? -magnitude : magnitude);
}

/* One call: what is asked, and what was recorded for it. */
struct call {
    uint8_t version, variant;
    int32_t predictor;
    size_t index;
    const struct bytes *question;
    size_t fragment, size; /* where in the question the fragment is */
    size_t count;
    size_t refusal, returned[2];
    int knows_state; /* the recorded state after it; a stream's record has none */
    int32_t predictor_after;
    size_t index_after;
    const struct bytes *answer;
    size_t sound, step; /* where in the answer its first sample is, and from one to the next */
    unsigned channel;
    unsigned long frame;
};

/* Puts the first difference of a list into words. */
static void differs(struct asker *a, const struct call *c, const char *what, long is, long recorded) {
    static const char *const names[] = {"H", "L", "L+", "above L+"};
    char place[48] = "";
    if (a->first[0] != 0) {
        return;
    }
    if (!c->knows_state) {
        snprintf(place, sizeof place, ", frame %lu of channel %u", c->frame, c->channel);
    }
    snprintf(a->first, sizeof a->first, "record %lu: version %u, variant %s%s, %lu samples from state %ld, %lu: %s is %ld, recorded %ld",
             a->record, c->version, names[c->variant < 3 ? c->variant : 3], place, (unsigned long)c->count, (long)c->predictor,
             (unsigned long)c->index, what, is, recorded);
}

/* Makes a call and compares its answer; the state after it is left in `predictor` and `index`. */
static void try_call(struct asker *a, const struct call *c, int32_t *predictor, size_t *index) {
    uint8_t fragment[MOST_FRAGMENT];
    int16_t out[MOST_COUNT + GUARD];
    size_t returned[2] = {0, 0}, done = c->refusal == 0 ? c->count : 0, i;
    char what[48];
    int wrong = 0;
    for (i = 0; i < c->size; i++) {
        fragment[i] = byte(c->question, c->fragment + i);
    }
    for (i = 0; i < MOST_COUNT + GUARD; i++) {
        out[i] = PATTERN;
    }

    size_t refusal = a->decode(c->version, c->variant, predictor, index, fragment, c->size, out, c->count, returned);
    if (refusal != c->refusal) {
        wrong = 1;
        differs(a, c, "the refusal", (long)refusal, (long)c->refusal);
    }
    for (i = 0; i < 2; i++) {
        if (returned[i] != c->returned[i]) {
            wrong = 1;
            differs(a, c, i == 0 ? "the first number" : "the second number", (long)returned[i], (long)c->returned[i]);
        }
    }
    for (i = 0; i < MOST_COUNT + GUARD; i++) {
        int16_t recorded = i < done ? sample(c->answer, c->sound + i * c->step) : PATTERN;
        if (out[i] != recorded) {
            wrong = 1;
            snprintf(what, sizeof what, i < done ? "sample %lu" : "place %lu of the output", (unsigned long)i);
            differs(a, c, what, out[i], recorded);
        }
    }
    if (c->knows_state && *predictor != c->predictor_after) {
        wrong = 1;
        differs(a, c, "the predictor after it", *predictor, c->predictor_after);
    }
    if (c->knows_state && *index != c->index_after) {
        wrong = 1;
        differs(a, c, "the index after it", (long)*index, (long)c->index_after);
    }
    if (c->refusal == 0) {
        a->tally.results++;
        a->tally.results_differ += wrong;
    } else {
        a->tally.refusals++;
        a->tally.refusals_differ += wrong;
    }
}

/* A question to the fragment decoder: 7, version, variant, count, state, fragment; its answer: three numbers, the state, the samples. */
static void try_fragment(struct asker *a, const struct bytes *q, const struct bytes *r) {
    struct call c = {.version = byte(q, 1), .variant = byte(q, 2), .count = byte(q, 3), .question = q, .fragment = 21, .answer = r};
    c.size = q->size - c.fragment;
    c.predictor = predictor_of(q, 4);
    c.index = (size_t)number(q, 13, 8);
    c.refusal = (size_t)number(r, 0, 8);
    c.returned[0] = (size_t)number(r, 8, 8);
    c.returned[1] = (size_t)number(r, 16, 8);
    c.knows_state = 1;
    c.predictor_after = predictor_of(r, 24);
    c.index_after = (size_t)number(r, 33, 8);
    c.sound = 41;
    c.step = 2;
    /* an index of a question that this processor's size_t does not hold cannot be asked */
    if (c.index != number(q, 13, 8)) {
        a->tally.left_out++;
        return;
    }
    int32_t predictor = c.predictor;
    size_t index = c.index;
    try_call(a, &c, &predictor, &index);
}

/* A question to the stream decoder: 3, room, stream; its answer: three numbers, header, samples. The stream is played frame by frame. */
static void try_stream(struct asker *a, const struct bytes *q, const struct bytes *r) {
    static const uint8_t sizes[] = {34, 26, 26};
    const size_t stream = 5, header = 24, sound = 43;
    if (number(r, 0, 8) != 0) {
        a->tally.left_out++;
        return;
    }
    struct call c = {.version = byte(r, header), .variant = byte(r, header + 1), .question = q, .answer = r};
    size_t channels = byte(r, header + 2), samples = (size_t)number(r, header + 11, 8), most = c.version == 3 ? 63 : 64;
    int32_t predictor[2] = {0, 0};
    size_t index[2] = {0, 0};
    if (channels < 1 || channels > 2 || r->size < sound || samples != (r->size - sound) / 2 / channels) {
        a->tally.broken = 1;
        return;
    }
    c.size = sizes[c.variant % 3] - (c.version != 3);
    c.step = 2 * channels;
    for (size_t first = 0; first < samples; first += most, c.frame++) {
        c.count = samples - first < most ? samples - first : most;
        c.returned[0] = c.count;
        for (c.channel = 0; c.channel < channels; c.channel++) {
            size_t state = a->one_state ? 0 : c.channel;
            c.fragment = stream + HEADER + (c.frame * channels + c.channel) * c.size;
            c.sound = sound + (first * channels + c.channel) * 2;
            c.predictor = predictor[state];
            c.index = index[state];
            try_call(a, &c, &predictor[state], &index[state]);
        }
    }
}

/* Asks what a list in memory has. */
static void try_list(struct asker *a, const uint8_t *list, size_t size) {
    for (size_t at = 0; at < size; a->record++) {
        const struct bytes sizes = {list + at, size - at, size - at};
        size_t asked = (size_t)number(&sizes, 4, 4), answered = (size_t)number(&sizes, 12, 4);
        if (size - at < 16 || size - at - 16 < asked || size - at - 16 - asked < answered) {
            a->tally.broken = 1;
            return;
        }
        const struct bytes q = {list + at + 16, asked, (size_t)number(&sizes, 0, 4)};
        const struct bytes r = {q.at + asked, answered, (size_t)number(&sizes, 8, 4)};
        at += 16 + asked + answered;
        if (byte(&q, 0) == FRAGMENT && q.size >= 21 && q.size - 21 <= MOST_FRAGMENT) {
            try_fragment(a, &q, &r);
        } else if (byte(&q, 0) == DECODE) {
            try_stream(a, &q, &r);
        } else {
            a->tally.left_out++;
        }
    }
}

#ifdef DECODER
decoder DECODER;
#else
#include <postlapse.h>

static size_t by_value(uint8_t version, uint8_t variant, int32_t *predictor, size_t *index, const uint8_t *fragment, size_t size,
                       int16_t *out, size_t count, size_t returned[2]) {
    postlapse_fragment_answer a = postlapse_decode_fragment(version, variant, *predictor, *index, fragment, size, out, count);
    *predictor = a.predictor;
    *index = a.index;
    returned[0] = a.first;
    returned[1] = 0; /* this answer has no second number */
    return a.refusal;
}

static size_t lent(uint8_t version, uint8_t variant, int32_t *predictor, size_t *index, const uint8_t *fragment, size_t size,
                   int16_t *out, size_t count, size_t returned[2]) {
    postlapse_state state = {*predictor, *index};
    postlapse_answer a = postlapse_decode_fragment_lent(version, variant, &state, fragment, size, out, count);
    *predictor = state.predictor;
    *index = state.index;
    returned[0] = a.first;
    returned[1] = a.second;
    return a.refusal;
}

/* A fault, on purpose: the output of version 3 is cut and not rounded, by decoding its codes as a fragment of version 2. */
static size_t cut(uint8_t version, uint8_t variant, int32_t *predictor, size_t *index, const uint8_t *fragment, size_t size, int16_t *out,
                  size_t count, size_t returned[2]) {
    uint8_t legacy[33];
    if (version != 3 || variant > 2 || size != (variant == 0 ? 34 : 26) || count > 63) {
        return lent(version, variant, predictor, index, fragment, size, out, count, returned);
    }
    postlapse_state state = {0, fragment[1] > 88 ? 88 : fragment[1]};
    legacy[0] = fragment[0];
    memcpy(legacy + 1, fragment + 2, size - 2);
    returned[0] = postlapse_decode_fragment_lent(2, variant, &state, legacy, size - 1, out, count).first;
    returned[1] = 0;
    return 0;
}
#endif

static uint8_t list[MOST_LIST];

/* Reads a list and asks it; answers whether it could be read. */
static int try_file(struct asker *a, const char *name) {
    FILE *file = fopen(name, "rb");
    size_t size = file == NULL ? 0 : fread(list, 1, sizeof list, file);
    int read = file != NULL && !ferror(file) && size < sizeof list;
    if (file != NULL) {
        fclose(file);
    }
    if (!read) {
        printf("%s: not read, or longer than %lu bytes\n", name, (unsigned long)sizeof list);
        return 0;
    }
    try_list(a, list, size);
    const struct tally *t = &a->tally;
    printf("%s, %s: %lu results asked, %lu differ; %lu refusals asked, %lu differ; %lu questions left out\n", name, a->who, t->results,
           t->results_differ, t->refusals, t->refusals_differ, t->left_out);
    if (a->first[0] != 0) {
        printf("  the first: %s\n", a->first);
    }
    if (t->broken) {
        printf("  the list breaks off, or has a record that is not of this layout\n");
    }
    return !t->broken;
}

#ifdef DECODER
static const struct asker right[] = {{.decode = DECODER, .who = "this decoder"}};
static const struct asker *const wrong = right;
static const size_t rights = 1, wrongs = 0;
#else
static const struct asker right[] = {{.decode = by_value, .who = "state by value"}, {.decode = lent, .who = "state lent"}};
static const struct asker wrong[] = {{.decode = lent, .who = "one state for both channels", .one_state = 1},
                                     {.decode = cut, .who = "output cut, not rounded"}};
static const size_t rights = 2, wrongs = 2;
#endif

int main(int words, char **word) {
    int faults = wrongs != 0 && words > 1 && strcmp(word[1], "wrong") == 0;
    int status = words < 2 + faults;
    if (status) {
        printf("usage: vectors [wrong] LIST..\n");
    }
    for (size_t i = 0; i < (faults ? wrongs : rights); i++) {
        unsigned long differ = 0;
        for (int k = 1 + faults; k < words; k++) {
            struct asker a = faults ? wrong[i] : right[i];
            status |= !try_file(&a, word[k]);
            differ += a.tally.results_differ + a.tally.refusals_differ;
        }
        status |= faults ? differ == 0 : differ != 0;
    }
    return status;
}
