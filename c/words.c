/* The words of the table of postlapse.h, for people who read what a program refused. They stand apart from libpostlapse.a, whose
 * source has no strings for C. No heap, no stdio. */
#include <postlapse.h>

const char *postlapse_words(size_t refusal) {
    switch (refusal) {
    case POSTLAPSE_DONE: return "done";
    case POSTLAPSE_INVALID_CHANNELS: return "channels not 1 or 2";
    case POSTLAPSE_ZERO_SAMPLE_RATE: return "rate 0";
    case POSTLAPSE_MISALIGNED_INTERLEAVED_SAMPLES: return "odd sample total in stereo";
    case POSTLAPSE_TOO_MANY_SAMPLES: return "over 4,294,967,295 samples a channel";
    case POSTLAPSE_TRUNCATED_HEADER: return "stream under 16 bytes";
    case POSTLAPSE_INVALID_MAGIC: return "stream does not begin with \"SQV4\"";
    case POSTLAPSE_UNSUPPORTED_VERSION: return "version outside 1..3";
    case POSTLAPSE_INVALID_VARIANT: return "variant above 2";
    case POSTLAPSE_INVALID_RESERVED_BYTE: return "reserved byte not 0";
    case POSTLAPSE_INVALID_FILE_LENGTH: return "wrong stream length";
    case POSTLAPSE_INVALID_STEP_INDEX: return "a fragment's index above 88";
    case POSTLAPSE_NON_ZERO_PADDING: return "a nonzero unused bit";
    case POSTLAPSE_OUTPUT_TOO_SHORT: return "output too short";
    case POSTLAPSE_INVALID_FRAGMENT: return "fragment not its exact size, or output too long for it";
    case POSTLAPSE_INVALID_STATE: return "versions 1, 2: predictor outside 16 bits or index above 88";
    case POSTLAPSE_NOT_WAVE: return "not RIFF/WAVE, or under 12 bytes";
    case POSTLAPSE_RIFF_END: return "RIFF end below 12 or past the data";
    case POSTLAPSE_CHUNK_HEADER: return "under 8 bytes for a chunk header";
    case POSTLAPSE_CHUNK_END: return "a chunk, with its pad byte, past the RIFF end";
    case POSTLAPSE_FORMAT_CHUNK: return "second fmt chunk, or one under 16 bytes";
    case POSTLAPSE_DATA_CHUNK: return "second data chunk";
    case POSTLAPSE_NO_FORMAT: return "no fmt chunk";
    case POSTLAPSE_ENCODING: return "encoding not PCM, or not 16 bits a sample";
    case POSTLAPSE_WAVE_CHANNELS: return "WAV channels not 1 or 2";
    case POSTLAPSE_ZERO_WAVE_RATE: return "WAV rate 0";
    case POSTLAPSE_BYTE_RATE: return "byte rate over 32 bits";
    case POSTLAPSE_INCONSISTENT: return "byte rate or alignment inconsistent";
    case POSTLAPSE_NO_DATA: return "no data chunk";
    case POSTLAPSE_PARTIAL_FRAME: return "partial frame at the end of the data";
    case POSTLAPSE_WRITER_CHANNELS: return "to be written: channels not 1 or 2";
    case POSTLAPSE_DATA_SIZE: return "to be written: data bytes over 32 bits";
    case POSTLAPSE_RIFF_SIZE: return "to be written: data bytes + 36 over 32 bits";
    case POSTLAPSE_WRITER_BYTE_RATE: return "to be written: byte rate over 32 bits";
    /* the programs alone have 38, so that the header has no name for it */
    case 38: return "program input under 2 or over 65,536 bytes";
    case POSTLAPSE_STRICT_FORMAT: return "strict: fmt chunk neither 16 nor 18 bytes long";
    case POSTLAPSE_STRICT_ORDER: return "strict: data before fmt";
    case POSTLAPSE_STRICT_END: return "strict: bytes after the RIFF end";
    default: return "unknown refusal";
    }
}
