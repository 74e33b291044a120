/* Flip decoding, full, with half restart and restarted. */
#ifndef PLAIN_DECODE_H
#define PLAIN_DECODE_H

#include "channel.h"
#include "pass.h"

/* Keys in the order of flipped indices: the leaf magnitude, then the index. Those of frozen indices come last of all. */
static void make_keys(const struct code *code, const int32_t *leaves, int32_t *keys)
{
    for (size_t i = 0; i < code->size; i++)
        keys[i] = mask_bit(code->mask, i) ? abs(leaves[i]) * SIZE + (int32_t)i : INT32_MAX;
}

/* The least key above the last one. */
static int32_t next_key(const int32_t *keys, size_t size, int32_t last)
{
    int32_t least = INT32_MAX;
    for (size_t i = 0; i < size; i++)
        if (keys[i] > last && keys[i] < least)
            least = keys[i];
    return least;
}

/* Where a later trial resumes: at the root; at the middle, if its lowest flipped index is there or above; after that index. */
enum restart { FULL, HALF, RESTARTED };

/* The first information index above i, or the size. */
static size_t next_information(const struct code *code, size_t i)
{
    do
        i++;
    while (i < code->size && !mask_bit(code->mask, i));
    return i;
}

/* The index at which a trial resumes whose lowest flipped index is given. */
static size_t restart_index(const struct code *code, size_t flipped, enum restart restart)
{
    size_t half = code->size / 2;
    if (restart == RESTARTED)
        return next_information(code, flipped);
    return restart == HALF && flipped >= half ? half : 0;
}

/* Forces the bits before the index at which a trial resumes: trial 1's, but at the lowest flipped index the opposite, and zeros after it.
 * Gives how many. */
static size_t force(struct pass *p, const struct code *code, const uint8_t *first, size_t flipped, enum restart restart)
{
    size_t q = restart_index(code, flipped, restart);
    if (q <= flipped) {
        memcpy(p->bits, first, q);
        return q;
    }
    memcpy(p->bits, first, flipped);
    p->bits[flipped] = !first[flipped];
    memset(p->bits + flipped + 1, 0, q - flipped - 1);
    return q;
}

static void later_trial(struct pass *p, const struct code *code, const int8_t *channel, const uint8_t *first, size_t flipped,
                        enum restart restart)
{
    size_t q = force(p, code, first, flipped, restart);
    p->rules[flipped] = 3;
    run(p, channel, code->size, q);
    p->rules[flipped] = 1;
}

/* Makes trials until one passes; gives its number, or 0. The message of the last trial is left in `message`. */
static size_t make_trials(struct pass *p, const struct code *code, const int8_t *channel, size_t limit, enum restart restart,
                          uint8_t *message)
{
    run(p, channel, code->size, 0);
    take(code, p->bits, message);
    if (passes(code, message))
        return 1;
    if (limit == 1)
        return 0;
    uint8_t first[SIZE];
    int32_t keys[SIZE], key = -1;
    memcpy(first, p->bits, code->size);
    make_keys(code, p->leaves, keys);
    for (size_t trial = 2; trial <= limit; trial++) {
        key = next_key(keys, code->size, key);
        later_trial(p, code, channel, first, (size_t)key % SIZE, restart);
        take(code, p->bits, message);
        if (passes(code, message))
            return trial;
    }
    return 0;
}

/* Decodes values of a code that was read. */
static uint64_t decode_values(const struct code *code, const int8_t *values, uint32_t limit, uint8_t *payload, size_t payload_len,
                              enum restart restart)
{
    if (limit < 1 || limit > code->k + code->r + 1)
        return answer(14, 0, 0);
    if (payload_len != bytes_for(code->k))
        return answer(15, 0, 0);
    struct pass pass;
    uint8_t message[SIZE];
    start(&pass, code);
    size_t trial = make_trials(&pass, code, values, limit, restart, message);
    if (trial == 0)
        return answer(16, limit, pass.steps);
    pack(message, code->k, payload);
    return answer(0, trial, pass.steps);
}

static uint64_t decode(const uint8_t *description, size_t description_len, const uint8_t *channel, size_t channel_len, uint32_t limit,
                       uint8_t *payload, size_t payload_len, enum restart restart)
{
    struct code code;
    const int8_t *values = (const int8_t *)channel;
    uint64_t refusal = read_call(description, description_len, values, channel_len, &code);
    return refusal ? refusal : decode_values(&code, values, limit, payload, payload_len, restart);
}

static uint64_t decode_full(const uint8_t *description, size_t description_len, const uint8_t *channel, size_t channel_len, uint32_t limit,
                            uint8_t *payload, size_t payload_len)
{
    return decode(description, description_len, channel, channel_len, limit, payload, payload_len, FULL);
}

static uint64_t decode_half(const uint8_t *description, size_t description_len, const uint8_t *channel, size_t channel_len, uint32_t limit,
                            uint8_t *payload, size_t payload_len)
{
    return decode(description, description_len, channel, channel_len, limit, payload, payload_len, HALF);
}

static uint64_t decode_restarted(const uint8_t *description, size_t description_len, const uint8_t *channel, size_t channel_len,
                                 uint32_t limit, uint8_t *payload, size_t payload_len)
{
    return decode(description, description_len, channel, channel_len, limit, payload, payload_len, RESTARTED);
}

#endif
