/* A pass whose first bits are forced. */
#ifndef PLAIN_RESUME_H
#define PLAIN_RESUME_H

#include "channel.h"
#include "pass.h"

/* The first index of a prefix byte that is not a bit, or a one at a frozen index, or the length. */
static size_t first_bad(const uint8_t *mask, const uint8_t *prefix, size_t len)
{
    size_t i = 0;
    while (i < len && prefix[i] <= mask_bit(mask, i))
        i++;
    return i;
}

static uint64_t resume(const uint8_t *description, size_t description_len, const uint8_t *channel, size_t channel_len,
                       const uint8_t *prefix, size_t prefix_len, uint8_t *bits, size_t bits_len)
{
    struct code code;
    const int8_t *values = (const int8_t *)channel;
    uint64_t refusal = read_call(description, description_len, values, channel_len, &code);
    if (refusal)
        return refusal;
    if (prefix_len > code.size)
        return answer(17, 0, 0);
    size_t bad = first_bad(code.mask, prefix, prefix_len);
    if (bad < prefix_len)
        return answer(18, bad, 0);
    if (bits_len != code.size)
        return answer(19, 0, 0);
    struct pass pass;
    start(&pass, &code);
    if (prefix_len > 0)
        memcpy(pass.bits, prefix, prefix_len);
    run(&pass, values, code.size, prefix_len);
    memcpy(bits, pass.bits, code.size);
    return answer(0, 0, pass.steps);
}

#endif
