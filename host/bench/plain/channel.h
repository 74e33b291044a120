/* What resume and the decoders are lent: a description and a channel. */
#ifndef PLAIN_CHANNEL_H
#define PLAIN_CHANNEL_H

#include "code.h"

/* Whether all values lie in -31..31. It looks at each of them, so that several are compared at once. */
static int are_within(const int8_t *values, size_t len)
{
    uint8_t outside = 0;
    for (size_t i = 0; i < len; i++)
        outside |= (uint8_t)(values[i] + 31) > 62;
    return !outside;
}

/* The first index of a value outside -31..31, or the length; most channels have none. */
static size_t first_outside(const int8_t *channel, size_t len)
{
    if (are_within(channel, len))
        return len;
    size_t i = 0;
    while (i < len && channel[i] >= -31 && channel[i] <= 31)
        i++;
    return i;
}

/* The answer of refusals 12 and 13, or 0. */
static uint64_t judge_channel(const struct code *code, const int8_t *channel, size_t len)
{
    if (len != code->size)
        return answer(12, 0, 0);
    size_t outside = first_outside(channel, len);
    return outside < len ? answer(13, outside, 0) : 0;
}

/* Reads what resume and the decoders are lent; gives the answer of the description's refusals, 12 and 13, or 0. */
static uint64_t read_call(const uint8_t *description, size_t description_len, const int8_t *channel, size_t channel_len, struct code *code)
{
    unsigned refusal = read_description(description, description_len, code);
    return refusal ? answer(refusal, 0, 0) : judge_channel(code, channel, channel_len);
}

#endif
