/* The longest code, in buffers of the header's sizes: encoded, decoded, tried, heard, and compared. */
#include "polar.h"

#include <stdio.h>
#include <string.h>

static uint8_t description[POLAR_LONGEST_DESCRIPTION];
static uint8_t sent[POLAR_LONGEST_PAYLOAD], received[POLAR_LONGEST_PAYLOAD];
static uint8_t codeword[POLAR_LONGEST_CODEWORD];
static uint8_t channel[POLAR_LONGEST_CODE], bits[POLAR_LONGEST_CODE];
static uint8_t hearing[POLAR_HEARING_SIZE];

/* All indices are information indices, and the check is a parity that starts at 1: of the two kinds, 4 is the longer. */
static void describe(void)
{
    uint8_t n = 0;
    while (1 << n < POLAR_LONGEST_CODE)
        n++;
    const uint8_t header[10] = {sizeof description & 0xff, sizeof description >> 8, 4, 0, n, 1, 1, 0, 1, 0};
    memset(description, 0xFF, sizeof description);
    memcpy(description, header, sizeof header);
}

/* One payload bit less than the code has indices. */
static void choose_payload(void)
{
    for (size_t i = 0; i < sizeof sent; i++)
        sent[i] = (uint8_t)(37 * i + 11);
    sent[sizeof sent - 1] &= 0xFE;
}

static void send_codeword(void)
{
    for (size_t i = 0; i < sizeof channel; i++)
        channel[i] = codeword[i / 8] >> (7 - i % 8) & 1 ? 0xFC : 4;
}

/* What was received is gone afterwards. */
static void print_decoded(const char *name, uint64_t answer)
{
    printf("%s: refusal %u, trial %u, %s\n", name, POLAR_REFUSAL(answer), (unsigned)POLAR_VALUE(answer),
           memcmp(sent, received, sizeof sent) == 0 ? "the payload sent" : "another payload");
    memset(received, 0, sizeof received);
}

static void hear(void)
{
    const uint32_t limit = POLAR_LONGEST_CODE + 1;
    uint64_t a = polar_hearing_open(description, sizeof description, hearing, sizeof hearing);
    printf("hearing: refusal %u\n", POLAR_REFUSAL(a));
    a = polar_hearing_preview(hearing, sizeof hearing, channel, sizeof channel, limit, received, sizeof received);
    print_decoded("preview", a);
    a = polar_hearing_add(hearing, sizeof hearing, channel, sizeof channel);
    printf("add: refusal %u, count %u\n", POLAR_REFUSAL(a), (unsigned)POLAR_VALUE(a));
    a = polar_hearing_decode_restarted(hearing, sizeof hearing, limit, received, sizeof received);
    print_decoded("decode", a);
}

int main(void)
{
    printf("code %d, description %d, codeword %d, payload %d, hearing %d\n", POLAR_LONGEST_CODE, POLAR_LONGEST_DESCRIPTION,
           POLAR_LONGEST_CODEWORD, POLAR_LONGEST_PAYLOAD, POLAR_HEARING_SIZE);
    describe();
    choose_payload();
    uint64_t a = polar_encode(description, sizeof description, sent, sizeof sent, codeword, sizeof codeword);
    printf("encode: refusal %u\n", POLAR_REFUSAL(a));
    send_codeword();
    a = polar_resume(description, sizeof description, channel, sizeof channel, NULL, 0, bits, sizeof bits);
    printf("resume: refusal %u\n", POLAR_REFUSAL(a));
    a = polar_decode_restarted(description, sizeof description, channel, sizeof channel, POLAR_LONGEST_CODE + 1, received, sizeof received);
    print_decoded("decode", a);
    hear();
    return 0;
}
