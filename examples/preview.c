/* Holds one hearing of a frame, too weak to decode, previews each repeat, keeps the one that settles the frame, and prints what came back.
 *
 *   (cd crates/polar && rt lib)
 *   gcc -std=c11 -Wall -Wextra -Werror -Iinclude examples/preview.c crates/polar/out/libpolar.a -o target/preview && target/preview
 */
#include <stdio.h>
#include <string.h>

#include "polar.h"

enum { SIZE = 32, REPEATS = 3, TRIALS = 4 };

/* The code of repeat.c: N = 32, r = 8, polynomial z^8 + z^2 + z + 1, start FF, K = 16, k = 8. */
static const uint8_t description[] = {0x0E, 0, 4, 0, 5, 8, 0x07, 0, 0xFF, 0, 0x80, 0xE8, 0xE8, 0xFE};

/* What was heard of payload A7's codeword: 4 for bit 0, -4 for bit 1, and noise of standard deviation 5, drawn until four trials fail. */
static const int8_t first[SIZE] = {
    2, 0, -1, 4, -5, 4, -5, -9, 1, -7, 8, -2, -9, -14, 6, -17, 5, -3, 1, -7, -4, 5, -2, 2, 3, -4, -2, -5, 2, 0, 4, 1};

/* One that does not settle the frame, one with a value out of range at index 7, and one that settles it. */
static const int8_t repeats[REPEATS][SIZE] = {
    {-7, -8, -5, -3, -13, 3, -1, -4, -7, -9, 5, -2, -9, -5, 9, -6, 6, -1, -14, 1, -4, 1, -2, -9, 4, -4, -1, 3, 1, 1, 10, -2},
    {7, -2, -4, 5, -1, 3, -7, -32, -5, 3, 3, -5, 4, -7, 0, -12, 18, -16, 0, -2, -1, 10, 0, -5, 9, 6, 0, -2, 4, -1, 9, -1},
    {9, 0, 3, -3, -3, 6, -7, -2, -3, 1, 5, -11, -6, -9, 5, 3, 9, -7, -2, -5, -1, 4, -3, 7, 5, 8, 6, 0, 0, -2, 3, 3},
};

static void print(const char *name, uint64_t answer, uint8_t payload) {
    unsigned refusal = POLAR_REFUSAL(answer), value = POLAR_VALUE(answer), steps = POLAR_STEPS(answer);
    printf("  %s: ", name);
    if (refusal == 0)
        printf("trial %u, %u steps, payload %02x\n", value, steps, payload);
    else if (refusal == 16)
        printf("refused 16 after %u trials, %u steps\n", value, steps);
    else if (refusal == 13)
        printf("refused 13 at index %u\n", value);
    else
        printf("refused %u\n", refusal);
}

static void decode(const uint8_t *state) {
    uint8_t payload = 0;
    uint64_t answer = polar_hearing_decode_restarted(state, POLAR_HEARING_SIZE, TRIALS, &payload, 1);
    print("decoded", answer, payload);
}

/* Whether the frame would decode with this vector added; the state is only read. */
static int would_settle(const uint8_t *state, const int8_t *values) {
    uint8_t payload = 0;
    uint64_t answer = polar_hearing_preview(state, POLAR_HEARING_SIZE, (const uint8_t *)values, SIZE, TRIALS, &payload, 1);
    print("preview", answer, payload);
    return POLAR_REFUSAL(answer) == 0;
}

static void keep(uint8_t *state, const int8_t *values) {
    uint64_t answer = polar_hearing_add(state, POLAR_HEARING_SIZE, (const uint8_t *)values, SIZE);
    printf("  kept: refusal %u, count %u\n", POLAR_REFUSAL(answer), (unsigned)POLAR_VALUE(answer));
}

int main(void) {
    uint8_t state[POLAR_HEARING_SIZE], before[POLAR_HEARING_SIZE];

    if (polar_hearing_open(description, sizeof description, state, sizeof state) != 0)
        return 1;
    puts("first hearing");
    keep(state, first);
    decode(state);

    memcpy(before, state, sizeof state);
    for (size_t i = 0; i < REPEATS; i++) {
        printf("repeat %u\n", (unsigned)i + 1);
        int settles = would_settle(state, repeats[i]);
        printf("  state: %s\n", memcmp(state, before, sizeof state) == 0 ? "as before" : "changed");
        if (settles) {
            keep(state, repeats[i]);
            decode(state);
            return 0;
        }
    }
    return 1;
}
