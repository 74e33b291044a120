/* The encoder. */
#ifndef PLAIN_ENCODE_H
#define PLAIN_ENCODE_H

#include "message.h"

static uint64_t encode(const uint8_t *description, size_t description_len, const uint8_t *payload, size_t payload_len, uint8_t *codeword,
                       size_t codeword_len)
{
    struct code code;
    unsigned refusal = read_description(description, description_len, &code);
    if (refusal)
        return answer(refusal, 0, 0);
    if (payload_len != bytes_for(code.k))
        return answer(9, 0, 0);
    if (code.k % 8 && payload[code.k / 8] & 0xff >> code.k % 8)
        return answer(10, 0, 0);
    if (codeword_len != code.size / 8)
        return answer(11, 0, 0);
    uint8_t message[SIZE], u[SIZE];
    unpack(payload, code.k, message);
    put_check(&code, message);
    memset(message + code.k + code.r, 0, code.size - code.k - code.r); /* place reads a bit past the message */
    place(&code, message, u);
    transform(u, code.size);
    pack(u, code.size, codeword);
    return answer(0, 0, 0);
}

#endif
