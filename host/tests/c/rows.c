/* Rows of document 01, and of requests 2.1, 2.2, 2.4, 2.6 and 2.7, by each function of the header: each answer in its parts, then the
 * output. */
#include "polar.h"

#include <inttypes.h>
#include <stdio.h>
#include <string.h>

typedef uint64_t decoder(const uint8_t *, size_t, const uint8_t *, size_t, uint32_t, uint8_t *, size_t);
typedef uint64_t set_decoder(const uint8_t *, size_t, const uint8_t *, size_t, uint32_t, uint32_t, uint8_t *, size_t);
typedef uint64_t hearing_decoder(const uint8_t *, size_t, uint32_t, uint8_t *, size_t);

static const uint8_t D[9] = {0x09, 0, 1, 0, 3, 1, 1, 0, 0xE8};
static const uint8_t D_MASK_80[9] = {0x09, 0, 1, 0, 3, 1, 1, 0, 0x80};
static const uint8_t D_START_1[11] = {0x0B, 0, 4, 0, 3, 1, 1, 0, 1, 0, 0xE8};
static const uint8_t D_START_2[11] = {0x0B, 0, 4, 0, 3, 1, 1, 0, 2, 0, 0xE8};
static const uint8_t CHECK_OF_3_BITS[9] = {0x09, 0, 1, 0, 3, 3, 3, 0, 0xE8};
static const uint8_t FIVE_INDICES[9] = {0x09, 0, 1, 0, 3, 1, 1, 0, 0xF8};
static const uint8_t V[8] = {0xFF, 3, 2, 2, 0xFE, 0xFE, 3, 2};
static const uint8_t PAIR[8] = {0xFA, 0xFE, 0xFE, 4, 3, 0xFE, 5, 4};
static const uint8_t LOST[8] = {4, 6, 0xFB, 0xFD, 0xFC, 3, 1, 0xFB};
static const uint8_t WEAK[8] = {0xFD, 4, 3, 0xFB, 1, 0xFE, 0, 0xFC};
static const uint8_t WEAK_PAIR[8] = {0xF8, 0xFC, 0xFF, 0xF7, 2, 5, 0xFC, 7};
static const uint8_t RIGHT[8] = {4, 0xFC, 4, 0xFC, 0xFC, 4, 0xFC, 4};
static const uint8_t ZEROS[8] = {0};
static const uint8_t LAST_31[8] = {0, 0, 0, 0, 0, 0, 0, 31};
static const uint8_t LAST_32[8] = {0, 0, 0, 0, 0, 0, 0, 32};
static const uint8_t LAST_MINUS_32[8] = {0, 0, 0, 0, 0, 0, 0, 0xE0};
static uint8_t hearing[POLAR_HEARING_SIZE];

static void print(const char *name, uint64_t answer, const uint8_t *output, size_t len)
{
    printf("%s: refusal %u, value %" PRIu32 ", steps %" PRIu32 ",", name, POLAR_REFUSAL(answer), POLAR_VALUE(answer), POLAR_STEPS(answer));
    for (size_t i = 0; i < len; i++)
        printf(" %02x", output[i]);
    putchar('\n');
}

static void encode(const char *name, const uint8_t *description, size_t len, uint8_t payload)
{
    uint8_t codeword[1] = {0xEE};
    uint64_t answer = polar_encode(description, len, &payload, 1, codeword, sizeof codeword);
    print(name, answer, codeword, sizeof codeword);
}

static void resume(const char *name, const uint8_t *channel, const uint8_t *prefix, size_t q)
{
    uint8_t bits[8];
    memset(bits, 0xEE, sizeof bits);
    uint64_t answer = polar_resume(D, sizeof D, channel, 8, prefix, q, bits, sizeof bits);
    print(name, answer, bits, sizeof bits);
}

static void decode_under(const uint8_t *description, size_t len, const char *name, decoder *by, const uint8_t *channel, uint32_t limit)
{
    uint8_t payload[1] = {0xEE};
    uint64_t answer = by(description, len, channel, 8, limit, payload, sizeof payload);
    print(name, answer, payload, sizeof payload);
}

static void decode(const char *name, decoder *by, const uint8_t *channel, uint32_t limit)
{
    decode_under(D, sizeof D, name, by, channel, limit);
}

static void decode_sets(const char *name, set_decoder *by, const uint8_t *description, const uint8_t *channel, uint32_t most_flips,
                        uint32_t limit)
{
    uint8_t payload[1] = {0xEE};
    uint64_t answer = by(description, 9, channel, 8, most_flips, limit, payload, sizeof payload);
    print(name, answer, payload, sizeof payload);
}

static void open_hearing(const char *name, const uint8_t *description, size_t len)
{
    print(name, polar_hearing_open(description, len, hearing, sizeof hearing), NULL, 0);
}

static void add_vector(const char *name, const uint8_t *channel, size_t len)
{
    print(name, polar_hearing_add(hearing, sizeof hearing, channel, len), NULL, 0);
}

static void decode_hearing(const char *name, hearing_decoder *by, uint32_t limit)
{
    uint8_t payload[1] = {0xEE};
    uint64_t answer = by(hearing, sizeof hearing, limit, payload, sizeof payload);
    print(name, answer, payload, sizeof payload);
}

static void preview(const char *name, const uint8_t *channel, size_t len, uint32_t limit)
{
    uint8_t payload[1] = {0xEE};
    uint64_t answer = polar_hearing_preview(hearing, sizeof hearing, channel, len, limit, payload, sizeof payload);
    print(name, answer, payload, sizeof payload);
}

/* Adds right signs to so many vectors, up to 255. */
static void fill_hearing(int count)
{
    for (int i = count; i < 254; i++)
        polar_hearing_add(hearing, sizeof hearing, RIGHT, sizeof RIGHT);
    add_vector("add 255 times", RIGHT, sizeof RIGHT);
}

static void encode_rows(void)
{
    encode("encode A0", D, sizeof D, 0xA0);
    encode("encode 80", D, sizeof D, 0x80);
    encode("encode B0", D, sizeof D, 0xB0);
    encode("mask 80", D_MASK_80, sizeof D_MASK_80, 0x80);
    encode("start 1", D_START_1, sizeof D_START_1, 0xA0);
    encode("start 2", D_START_2, sizeof D_START_2, 0xA0);
}

static void resume_rows(void)
{
    resume("right signs", RIGHT, NULL, 0);
    resume("six zeros", V, ZEROS, 6);
    resume("q = 0", V, ZEROS, 0);
    resume("q = 1", V, ZEROS, 1);
    resume("q = 7", V, ZEROS, 7);
    resume("q = 8", V, ZEROS, 8);
    resume("31", LAST_31, NULL, 0);
    resume("32", LAST_32, NULL, 0);
    resume("-32", LAST_MINUS_32, NULL, 0);
}

static void decode_rows(decoder *by)
{
    decode("right signs", by, RIGHT, 1);
    decode("V, T = 1", by, V, 1);
    decode("V, T = 2", by, V, 2);
    decode("V, T = 0", by, V, 0);
    decode("V, T = 5", by, V, 5);
    decode("V, T = 6", by, V, 6);
    decode("zeros", by, ZEROS, 1);
    decode("32", by, LAST_32, 1);
    decode_under(D_START_1, sizeof D_START_1, "start 1, zeros, T = 1", by, ZEROS, 1);
    decode_under(D_START_1, sizeof D_START_1, "start 1, zeros, T = 2", by, ZEROS, 2);
    decode_under(FIVE_INDICES, sizeof FIVE_INDICES, "flips 3, 4, 5", by, WEAK, 6);
}

static void set_rows(set_decoder *by)
{
    decode_sets("V, w = 1, T = 1", by, D, V, 1, 1);
    decode_sets("V, w = 1, T = 2", by, D, V, 1, 2);
    decode_sets("a pair, w = 1, T = 2", by, CHECK_OF_3_BITS, PAIR, 1, 2);
    decode_sets("a pair, w = 2, T = 3", by, CHECK_OF_3_BITS, PAIR, 2, 3);
    decode_sets("no set passes, w = 2, T = 512", by, CHECK_OF_3_BITS, LOST, 2, 512);
    decode_sets("lowest indices 4, 3, 3, 4, 5, 4", by, FIVE_INDICES, WEAK_PAIR, 2, 7);
    decode_sets("w = 0, T = 0", by, D, V, 0, 0);
    decode_sets("w = 4, T = 1", by, D, V, 4, 1);
    decode_sets("w = 1, T = 6", by, D, V, 1, 6);
    decode_sets("w = 2, T = 513", by, D, V, 2, 513);
}

/* One hearing: V, then right signs; cleared; filled with right signs. */
static void hearing_rows(hearing_decoder *by)
{
    open_hearing("open", D, sizeof D);
    decode_hearing("nothing heard, T = 1", by, 1);
    add_vector("add V", V, sizeof V);
    decode_hearing("V heard, T = 1", by, 1);
    decode_hearing("V heard, T = 2", by, 2);
    decode_hearing("V heard, T = 6", by, 6);
    add_vector("add 32", LAST_32, sizeof LAST_32);
    add_vector("add seven values", V, 7);
    add_vector("add right signs", RIGHT, sizeof RIGHT);
    decode_hearing("both heard, T = 1", by, 1);
    print("clear", polar_hearing_clear(hearing, sizeof hearing), NULL, 0);
    decode_hearing("cleared, T = 1", by, 1);
    fill_hearing(0);
    add_vector("add once more", RIGHT, sizeof RIGHT);
    open_hearing("mask 80", D_MASK_80, sizeof D_MASK_80);
    decode_hearing("full, T = 1", by, 1);
    print("a byte less", polar_hearing_clear(hearing, sizeof hearing - 1), NULL, 0);
    print("no bytes", polar_hearing_clear(NULL, 0), NULL, 0);
    memset(hearing, 0, sizeof hearing);
    decode_hearing("damaged", by, 1);
}

/* One hearing: V, then right signs; filled with right signs. What is tried between them is not kept. */
static void preview_rows(void)
{
    open_hearing("open", D, sizeof D);
    preview("right signs tried, T = 1", RIGHT, sizeof RIGHT, 1);
    add_vector("add V", V, sizeof V);
    preview("right signs tried, T = 1", RIGHT, sizeof RIGHT, 1);
    preview("V tried, T = 1", V, sizeof V, 1);
    preview("V tried, T = 2", V, sizeof V, 2);
    preview("V tried, T = 6", V, sizeof V, 6);
    preview("32 tried, T = 6", LAST_32, sizeof LAST_32, 6);
    preview("seven values tried, T = 6", V, 7, 6);
    preview("nothing tried, T = 6", NULL, 0, 6);
    decode_hearing("V heard, T = 1", polar_hearing_decode_restarted, 1);
    add_vector("add right signs", RIGHT, sizeof RIGHT);
    decode_hearing("both heard, T = 1", polar_hearing_decode_restarted, 1);
    fill_hearing(2);
    preview("V tried, T = 6", V, sizeof V, 6);
    preview("32 tried, T = 6", LAST_32, sizeof LAST_32, 6);
    memset(hearing, 0, sizeof hearing);
    preview("damaged, seven values tried, T = 6", V, 7, 6);
    print("nothing lent", polar_hearing_preview(NULL, 0, NULL, 0, 0, NULL, 0), NULL, 0);
}

int main(void)
{
    encode_rows();
    resume_rows();
    decode_rows(polar_decode_full);
    decode_rows(polar_decode_half);
    decode_rows(polar_decode_restarted);
    set_rows(polar_decode_sets_full);
    set_rows(polar_decode_sets_half);
    set_rows(polar_decode_sets_restarted);
    hearing_rows(polar_hearing_decode_full);
    hearing_rows(polar_hearing_decode_restarted);
    preview_rows();
    return 0;
}
