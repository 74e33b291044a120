/* Encodes a payload, disturbs the frame, decodes it with and without restarting, and prints what came back.
 *
 *   (cd crates/polar && rt lib)
 *   gcc -std=c11 -Wall -Wextra -Werror -Iinclude examples/frame.c crates/polar/out/libpolar.a -o target/frame && target/frame
 */
#include <stdio.h>

#include "polar.h"

enum { SIZE = 16, STRENGTH = 4 };

/* N = 16, r = 3, polynomial z^3 + z + 1, information indices 7, 9 to 15: K = 8, k = 5. */
static const uint8_t description[] = {0x0A, 0, 1, 0, 4, 3, 0x03, 0, 0x80, 0xFE};

/* The values that are disturbed, bit i standing for value i: none, one, two, two others, four. */
static const uint16_t disturbances[] = {0x0000, 0x0001, 0x0005, 0x0101, 0x000F};

/* Channel values of a packed codeword: positive for bit 0, negative for bit 1, and the other way where disturbed. */
static void send(const uint8_t *codeword, uint16_t disturbed, int8_t *values) {
    for (size_t i = 0; i < SIZE; i++) {
        int bit = (codeword[i / 8] >> (7 - i % 8) & 1) ^ (disturbed >> i & 1);
        values[i] = (int8_t)(bit ? -STRENGTH : STRENGTH);
    }
}

static void print(const char *name, uint64_t answer, uint8_t payload) {
    printf("%s: ", name);
    if (POLAR_REFUSAL(answer) == 0)
        printf("trial %u, %u steps, payload %02x\n", (unsigned)POLAR_VALUE(answer), (unsigned)POLAR_STEPS(answer), payload);
    else
        printf("refused %u\n", POLAR_REFUSAL(answer));
}

static void decode(const int8_t *values) {
    const uint8_t *channel = (const uint8_t *)values;
    uint8_t payload = 0;
    uint64_t answer = polar_decode_full(description, sizeof description, channel, SIZE, 4, &payload, 1);
    print("  full", answer, payload);
    payload = 0;
    answer = polar_decode_restarted(description, sizeof description, channel, SIZE, 4, &payload, 1);
    print("  restarted", answer, payload);
}

int main(void) {
    const uint8_t payload = 0xB0; /* 10110, highest bit first */
    uint8_t codeword[SIZE / 8];
    int8_t values[SIZE];

    uint64_t answer = polar_encode(description, sizeof description, &payload, 1, codeword, sizeof codeword);
    if (POLAR_REFUSAL(answer) != 0)
        return 1;
    printf("codeword %02x %02x\n", codeword[0], codeword[1]);

    for (size_t i = 0; i < sizeof disturbances / sizeof disturbances[0]; i++) {
        printf("disturbed %04x\n", (unsigned)disturbances[i]);
        send(codeword, disturbances[i], values);
        decode(values);
    }
    values[0] = 32;
    puts("out of range");
    decode(values);
    return 0;
}
