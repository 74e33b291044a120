/* The codec in plain C, for the benchmark to compare with: the calls and answers of include/polar.h by the same algorithm, a recursion
 * on int32_t values with one bit a byte, and the quantiser. One translation unit: compile with -DTABLE=name, and the symbol of that
 * name holds the functions. */
#include "plain/clock.h"
#include "plain/decode.h"
#include "plain/encode.h"
#include "plain/hearing.h"
#include "plain/quantise.h"
#include "plain/resume.h"
#include "plain/sets.h"

typedef uint64_t encoder(const uint8_t *, size_t, const uint8_t *, size_t, uint8_t *, size_t);
typedef uint64_t resumer(const uint8_t *, size_t, const uint8_t *, size_t, const uint8_t *, size_t, uint8_t *, size_t);
typedef uint64_t decoder(const uint8_t *, size_t, const uint8_t *, size_t, uint32_t, uint8_t *, size_t);
typedef uint64_t set_decoder(const uint8_t *, size_t, const uint8_t *, size_t, uint32_t, uint32_t, uint8_t *, size_t);
typedef uint64_t set_clock(const uint8_t *, size_t, const uint8_t *, size_t, uint32_t, uint32_t, uint8_t *, size_t, uint64_t *);
typedef uint64_t opener(const uint8_t *, size_t, uint8_t *, size_t);
typedef uint64_t adder(uint8_t *, size_t, const uint8_t *, size_t);
typedef uint64_t clearer(uint8_t *, size_t);
typedef uint64_t hearing_decoder(const uint8_t *, size_t, uint32_t, uint8_t *, size_t);
typedef float quantiser(float, const float *, size_t, uint8_t *, size_t, uint64_t *);

struct table {
    encoder *encode;
    resumer *resume;
    decoder *decode_full, *decode_half, *decode_restarted;
    set_decoder *decode_sets_full, *decode_sets_half, *decode_sets_restarted;
    set_clock *decode_sets_by_clock;
    opener *hearing_open;
    adder *hearing_add;
    clearer *hearing_clear;
    hearing_decoder *hearing_decode_full, *hearing_decode_restarted;
    decoder *hearing_preview;
    quantiser *quantise;
};

extern const struct table TABLE;
const struct table TABLE = {encode, resume, decode_full, decode_half, decode_restarted, decode_sets_full, decode_sets_half,
                            decode_sets_restarted, decode_sets_by_clock, hearing_open, hearing_add, hearing_clear,
                            hearing_decode_full, hearing_decode_restarted, hearing_preview, quantise};
