/* Hearings: vectors added up in a state that the caller lends. */
#ifndef PLAIN_HEARING_H
#define PLAIN_HEARING_H

#include "decode.h"

enum { LONGEST_DESCRIPTION = HEADER + 2 + SIZE / 8, MOST_COUNT = 255 };

/* A state: a description and N combined values, each with zeros after it, and the count of vectors in them. */
struct hearing {
    uint8_t description[LONGEST_DESCRIPTION], count;
    int8_t values[SIZE];
};

_Static_assert(sizeof(struct hearing) == LONGEST_DESCRIPTION + 1 + SIZE, "the struct is laid out as the bytes lent");

/* Whether all bytes are zero. It looks at each of them, so that several are compared at once. */
static int are_zero(const void *from, size_t len)
{
    const uint8_t *bytes = from;
    uint8_t any = 0;
    for (size_t i = 0; i < len; i++)
        any |= bytes[i];
    return !any;
}

/* Reads the description of a state; gives 40 for bytes that no list of calls leaves there, or 0. */
static unsigned judge_state(const struct hearing *h, struct code *code)
{
    size_t len = word(h->description);
    if (len > LONGEST_DESCRIPTION || read_description(h->description, len, code))
        return 40;
    if (!are_zero(h->description + len, LONGEST_DESCRIPTION - len))
        return 40;
    if (!are_within(h->values, code->size) || !are_zero(h->values + code->size, SIZE - code->size))
        return 40;
    return h->count == 0 && !are_zero(h->values, code->size) ? 40 : 0;
}

/* The code of the state in the bytes lent; gives refusal 40, or 0. */
static unsigned read_state(const uint8_t *state, size_t state_len, struct code *code)
{
    if (state_len != sizeof(struct hearing))
        return 40;
    return judge_state((const struct hearing *)state, code);
}

/* A sum has a magnitude of at most 62. It is clipped in a byte and at one end after the other, so that several are at once. */
static void add_values(int8_t *restrict values, const int8_t *restrict channel, size_t len)
{
    for (size_t i = 0; i < len; i++) {
        int8_t sum = (int8_t)(values[i] + channel[i]);
        int8_t most = sum > 31 ? 31 : sum;
        values[i] = most < -31 ? -31 : most;
    }
}

/* Adds a vector; gives the answer of refusals 12, 13 and 27, after which nothing has changed, or of acceptance. */
static uint64_t add_vector(struct hearing *h, const struct code *code, const int8_t *channel, size_t channel_len)
{
    uint64_t refusal = judge_channel(code, channel, channel_len);
    if (refusal)
        return refusal;
    if (h->count == MOST_COUNT)
        return answer(27, 0, 0);
    add_values(h->values, channel, code->size);
    h->count++;
    return answer(0, h->count, 0);
}

static uint64_t hearing_open(const uint8_t *description, size_t description_len, uint8_t *state, size_t state_len)
{
    struct hearing h = {0};
    struct code code;
    if (state_len != sizeof h)
        return answer(40, 0, 0);
    unsigned refusal = read_description(description, description_len, &code);
    if (refusal)
        return answer(refusal, 0, 0);
    memcpy(h.description, description, description_len);
    memcpy(state, &h, sizeof h);
    return answer(0, 0, 0);
}

static uint64_t hearing_add(uint8_t *state, size_t state_len, const uint8_t *channel, size_t channel_len)
{
    struct code code;
    if (read_state(state, state_len, &code))
        return answer(40, 0, 0);
    return add_vector((struct hearing *)state, &code, (const int8_t *)channel, channel_len);
}

static uint64_t hearing_clear(uint8_t *state, size_t state_len)
{
    struct hearing *h = (struct hearing *)state;
    struct code code;
    if (read_state(state, state_len, &code))
        return answer(40, 0, 0);
    h->count = 0;
    memset(h->values, 0, sizeof h->values);
    return answer(0, 0, 0);
}

static uint64_t hearing_decode(const uint8_t *state, size_t state_len, uint32_t limit, uint8_t *payload, size_t payload_len,
                               enum restart restart)
{
    const struct hearing *h = (const struct hearing *)state;
    struct code code;
    if (read_state(state, state_len, &code))
        return answer(40, 0, 0);
    return decode_values(&code, h->values, limit, payload, payload_len, restart);
}

static uint64_t hearing_decode_full(const uint8_t *state, size_t state_len, uint32_t limit, uint8_t *payload, size_t payload_len)
{
    return hearing_decode(state, state_len, limit, payload, payload_len, FULL);
}

static uint64_t hearing_decode_restarted(const uint8_t *state, size_t state_len, uint32_t limit, uint8_t *payload, size_t payload_len)
{
    return hearing_decode(state, state_len, limit, payload, payload_len, RESTARTED);
}

/* Adds a vector to a copy and decodes that. The copy is of what an add changes: the count, and as many values as the code has. */
static uint64_t hearing_preview(const uint8_t *state, size_t state_len, const uint8_t *channel, size_t channel_len, uint32_t limit,
                                uint8_t *payload, size_t payload_len)
{
    const struct hearing *h = (const struct hearing *)state;
    struct hearing copy;
    struct code code;
    if (read_state(state, state_len, &code))
        return answer(40, 0, 0);
    copy.count = h->count;
    memcpy(copy.values, h->values, code.size);
    uint64_t added = add_vector(&copy, &code, (const int8_t *)channel, channel_len);
    if (added & 0xFF)
        return added;
    return decode_values(&code, copy.values, limit, payload, payload_len, RESTARTED);
}

#endif
