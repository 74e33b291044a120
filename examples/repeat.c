/* Hears a frame twice, each time too weakly to decode it, adds up both hearings, decodes the sums, and prints what came back.
 *
 *   (cd crates/polar && rt lib)
 *   gcc -std=c11 -Wall -Wextra -Werror -Iinclude examples/repeat.c crates/polar/out/libpolar.a -o target/repeat && target/repeat
 */
#include <stdio.h>

#include "polar.h"

enum { SIZE = 32, HEARINGS = 2, TRIALS = 4, LARGEST = 31 };

/* N = 32, r = 8, polynomial z^8 + z^2 + z + 1, start FF; an information index has three one bits or more: K = 16, k = 8. */
static const uint8_t description[] = {0x0E, 0, 4, 0, 5, 8, 0x07, 0, 0xFF, 0, 0x80, 0xE8, 0xE8, 0xFE};

static const uint8_t sent = 0x5C;

/* What was heard of its codeword: 4 for bit 0, -4 for bit 1, and noise of standard deviation 5, drawn until only the sums decode. */
static const int8_t heard[HEARINGS][SIZE] = {
    {8, 3, -10, -14, -3, -1, 4, 2, 4, -3, -2, -3, 2, 2, 9, -8, -2, 8, 6, -18, 8, 6, 4, 1, -4, 3, 8, 9, 11, 12, 5, 2},
    {3, 10, 3, 2, 5, -9, 4, -11, -6, -12, -3, 10, 3, 1, 1, -3, 5, 8, 3, -17, 10, 6, 3, 2, 3, -19, -9, -7, -2, -2, -3, 8},
};

/* The sums that the library holds, made here too: the bytes of a state are its own. */
static void add_up(int8_t *sums) {
    for (size_t i = 0; i < SIZE; i++) {
        int sum = heard[0][i] + heard[1][i];
        sums[i] = (int8_t)(sum > LARGEST ? LARGEST : sum < -LARGEST ? -LARGEST : sum);
    }
}

/* Values, and how many of them favour the other bit than was sent. */
static void print_values(const char *name, const int8_t *values, const uint8_t *codeword) {
    unsigned wrong = 0;
    printf("%s:", name);
    for (size_t i = 0; i < SIZE; i++) {
        printf(" %d", values[i]);
        wrong += (values[i] < 0) != (codeword[i / 8] >> (7 - i % 8) & 1);
    }
    printf("\n  wrong signs: %u\n", wrong);
}

static void print(const char *name, uint64_t answer, uint8_t payload) {
    printf("  %s: ", name);
    if (POLAR_REFUSAL(answer) == 0)
        printf("trial %u, %u steps, payload %02x\n", (unsigned)POLAR_VALUE(answer), (unsigned)POLAR_STEPS(answer), payload);
    else
        printf("refused %u\n", POLAR_REFUSAL(answer));
}

static void decode_alone(const int8_t *values) {
    uint8_t payload = 0;
    const uint8_t *channel = (const uint8_t *)values;
    uint64_t answer = polar_decode_restarted(description, sizeof description, channel, SIZE, TRIALS, &payload, 1);
    print("alone", answer, payload);
}

static void decode(const uint8_t *state) {
    uint8_t payload = 0;
    uint64_t answer = polar_hearing_decode_restarted(state, POLAR_HEARING_SIZE, TRIALS, &payload, 1);
    print("combined", answer, payload);
}

static void add(uint8_t *state, const int8_t *values) {
    uint64_t answer = polar_hearing_add(state, POLAR_HEARING_SIZE, (const uint8_t *)values, SIZE);
    if (POLAR_REFUSAL(answer) == 0)
        printf("  added: %u\n", (unsigned)POLAR_VALUE(answer));
    else
        printf("  added: refused %u, index %u\n", POLAR_REFUSAL(answer), (unsigned)POLAR_VALUE(answer));
}

int main(void) {
    uint8_t codeword[SIZE / 8], state[POLAR_HEARING_SIZE];
    int8_t sums[SIZE];

    if (polar_encode(description, sizeof description, &sent, 1, codeword, sizeof codeword) != 0 ||
        polar_hearing_open(description, sizeof description, state, sizeof state) != 0)
        return 1;
    printf("payload %02x, codeword %02x %02x %02x %02x\n", sent, codeword[0], codeword[1], codeword[2], codeword[3]);

    for (size_t i = 0; i < HEARINGS; i++) {
        print_values("heard", heard[i], codeword);
        decode_alone(heard[i]);
        add(state, heard[i]);
    }
    add_up(sums);
    print_values("sums", sums, codeword);
    decode(state);

    sums[7] = LARGEST + 1;
    puts("out of range");
    add(state, sums);
    decode(state);

    if (polar_hearing_clear(state, sizeof state) != 0)
        return 1;
    puts("cleared");
    decode(state); /* zero values, which fail under this start */
    return 0;
}
