/* For tools/footprint: runs each call on a stack that is filled with a pattern, with many small and large inputs, and prints the most
 * bytes of it that were changed, from the return address down. */
#include <postlapse.h>
#include <stdio.h>
#include <string.h>

typedef unsigned long word;
#define PATTERN 0xa5c35a3ca5c35a3cul
enum { PLACES = 8192, PUSHED = 4, MOST = 40000 };

/* Calls with the first six arguments in registers and four more on a stack of its own. */
void on_stack(const void *call, const word *arguments, word *end);
__asm__(".text\n.globl on_stack\non_stack:\n"
        "push %rbp\nmov %rsp,%rbp\npush %rbx\npush %r12\npush %r13\npush %r14\npush %r15\nsub $8,%rsp\n"
        "mov %rdi,%rax\nmov %rsi,%r10\nmov %rdx,%rsp\n"
        "pushq 72(%r10)\npushq 64(%r10)\npushq 56(%r10)\npushq 48(%r10)\n"
        "mov (%r10),%rdi\nmov 8(%r10),%rsi\nmov 16(%r10),%rdx\nmov 24(%r10),%rcx\nmov 32(%r10),%r8\nmov 40(%r10),%r9\n"
        "call *%rax\n"
        "lea -48(%rbp),%rsp\nadd $8,%rsp\npop %r15\npop %r14\npop %r13\npop %r12\npop %rbx\npop %rbp\nret\n");

static _Alignas(64) word stack[PLACES];
static _Alignas(16) unsigned char answer[64];
static struct {
    const char *name;
    word most;
} seen[16];

/* The bytes of stack that a call changed, its return address among them. */
static void ask(const char *name, const void *call, word *arguments) {
    size_t i = 0, k = 0;
    for (i = 0; i < PLACES; i++) {
        stack[i] = PATTERN;
    }
    on_stack(call, arguments, stack + PLACES);
    for (i = 0; i < PLACES && stack[i] == PATTERN; i++) {
    }
    word bytes = (PLACES - PUSHED - i) * sizeof(word);
    while (seen[k].name != NULL && strcmp(seen[k].name, name) != 0) {
        k++;
    }
    seen[k].name = name;
    seen[k].most = bytes > seen[k].most ? bytes : seen[k].most;
}
#define ASK(call, ...) ask(#call, (const void *)(call), (word[10]){__VA_ARGS__})
#define ANSWER (word)answer

static unsigned seed = 1;
static unsigned random_number(void) {
    seed = seed * 1664525u + 1013904223u;
    return seed >> 8;
}

static int16_t pcm[MOST], out[MOST];
static unsigned char bytes[3 * MOST], file[3 * MOST];

/* Silence, noise, full scale, whispers and a saw. */
static int16_t sound(int kind, size_t i) {
    switch (kind) {
    case 0: return 0;
    case 1: return (int16_t)random_number();
    case 2: return i % 40 < 20 ? 32767 : -32768;
    case 3: return (int16_t)(random_number() % 9);
    default: return (int16_t)(i * 37 % 4000);
    }
}

static void encodings(void) {
    static const size_t counts[] = {0, 1, 2, 3, 62, 63, 64, 126, 127, 128, 1001, 30000};
    for (size_t n = 0; n < sizeof counts / sizeof *counts; n++)
        for (int kind = 0; kind < 5; kind++) {
            for (size_t i = 0; i < counts[n]; i++) {
                pcm[i] = sound(kind, i);
            }
            for (word variant = 0; variant < 4; variant++)
                for (word channels = 0; channels < 4; channels++)
                    for (word gain = 0; gain < 256; gain += 85)
                        for (word room = 0; room <= sizeof bytes; room += sizeof bytes) {
                            word rate = n == 3 ? 0 : 8000;
                            ASK(postlapse_encode, ANSWER, (word)pcm, counts[n], channels, rate, variant, gain, (word)bytes, room);
                        }
        }
}

static void streams(void) {
    static const size_t most_frames[] = {0, 1, 2, 3, 200};
    for (word version = 0; version < 5; version++)
        for (word variant = 0; variant < 4; variant++)
            for (word channels = 0; channels < 4; channels++)
                for (size_t n = 0; n < 5; n++)
                    for (int damage = 0; damage < 40; damage++) {
                        size_t fragment = (variant == 0 ? 33 : 25) + (version == 3), frame = version == 3 ? 63 : 64;
                        size_t frames = most_frames[n], samples = frames * frame, size = 16 + frames * channels * fragment;
                        for (size_t i = 0; i < size; i++) {
                            bytes[i] = (unsigned char)random_number();
                        }
                        for (size_t f = 0; version == 3 && f < frames * channels; f++) {
                            bytes[16 + f * fragment + 1] %= 89;
                            bytes[16 + f * fragment + fragment - 1] &= variant == 0 ? 15 : 31;
                        }
                        memcpy(bytes, "SQV4", 4);
                        memcpy(bytes + 4, (unsigned char[]){version, variant, channels, 0, 64, 31, 0, 0}, 8);
                        for (int k = 0; k < 4; k++) {
                            bytes[12 + k] = (unsigned char)(samples >> 8 * k);
                        }
                        if (damage > 4) {
                            bytes[random_number() % size] ^= 1u << random_number() % 8;
                        }
                        size -= damage == 4;
                        ASK(postlapse_inspect, ANSWER, (word)bytes, size);
                        ASK(postlapse_decode, ANSWER, (word)bytes, size, (word)out, MOST);
                        ASK(postlapse_decode, ANSWER, (word)bytes, size, (word)out, 0);
                    }
}

static void fragments(void) {
    static const word predictors[] = {0, 32767, -32768, 32768}, indices[] = {0, 40, 88, 89};
    for (word version = 0; version < 5; version++)
        for (word variant = 0; variant < 4; variant++)
            for (word count = 0; count < 66; count++)
                for (int n = 0; n < 64; n++) {
                    size_t size = (variant == 0 ? 33 : 25) + (version == 3) - (n == 63); /* one is a byte short */
                    word predictor = predictors[n % 4], index = indices[n / 4 % 4];
                    postlapse_state state = {(int32_t)predictor, index};
                    for (size_t i = 0; i < size; i++) {
                        bytes[i] = n < 2 ? (unsigned char)-n : (unsigned char)random_number();
                    }
                    ASK(postlapse_decode_fragment, ANSWER, version, variant, predictor, index, (word)bytes, size, (word)out, count);
                    ASK(postlapse_decode_fragment_lent, ANSWER, version, variant, (word)&state, (word)bytes, size, (word)out, count);
                }
}

static void waves(void) {
    for (size_t count = 0; count <= 30000; count = count * 3 + 1)
        for (word channels = 0; channels < 4; channels++)
            for (size_t room = 0; room <= sizeof file; room += sizeof file) {
                ASK(postlapse_write_wave, ANSWER, channels, 8000, (word)pcm, count, (word)file, room);
                ASK(postlapse_load_samples, ANSWER, (word)file, 2 * count + 1, (word)out, room == 0 ? 0 : MOST);
            }
    postlapse_write_wave(2, 8000, pcm, 100, bytes, sizeof bytes);
    memcpy(file, bytes, 36); /* the same file with a chunk between fmt and data */
    memcpy(file + 36, "LIST\5\0\0\0abcde\0", 14);
    memcpy(file + 50, bytes + 36, 208);
    file[4] += 14;
    for (int damage = 0; damage < 20000; damage++) {
        size_t at = random_number() % 58, size = damage % 4 == 0 ? random_number() % 259 : 258;
        unsigned char before = file[at];
        file[at] = damage > 8 ? (unsigned char)random_number() : before;
        ASK(postlapse_read_wave, ANSWER, (word)file, size);
        ASK(postlapse_read_strict_wave, ANSWER, (word)file, size);
        ASK(postlapse_read_wave, ANSWER, (word)bytes, size);
        ASK(postlapse_read_strict_wave, ANSWER, (word)bytes, damage % 4 == 0 ? size : 244);
        file[at] = before;
    }
}

static void lengths(void) {
    static const word samples[] = {0, 1, 63, 64, 65, 1000000, 4294967295};
    ASK(postlapse_version, 0);
    for (word version = 0; version < 5; version++)
        for (size_t n = 0; n < 7; n++) {
            ASK(postlapse_frame_count, ANSWER, version, samples[n]);
            for (word variant = 0; variant < 4; variant++) {
                ASK(postlapse_fragment_size, ANSWER, version, variant);
                for (word channels = 0; channels < 4; channels++)
                    ASK(postlapse_stream_length, ANSWER, version, variant, channels, samples[n]);
            }
        }
}

int main(void) {
    lengths();
    encodings();
    streams();
    fragments();
    waves();
    for (size_t i = 0; seen[i].name != NULL; i++) {
        printf("%s %lu\n", seen[i].name, seen[i].most);
    }
}
