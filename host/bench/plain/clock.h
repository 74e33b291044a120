/* How much of a decoder's time goes into choosing the next set: restarted decoding with a clock around each choice. */
#ifndef PLAIN_CLOCK_H
#define PLAIN_CLOCK_H

#include <time.h>

#include "sets.h"

static uint64_t nanoseconds(void)
{
    struct timespec now;
    timespec_get(&now, TIME_UTC);
    return (uint64_t)now.tv_sec * 1000000000u + (uint64_t)now.tv_nsec;
}

/* The time of all choices since it was 0. */
static uint64_t choosing;

static int choose_by_clock(struct queue *queue, const struct pass *p, size_t size, size_t most_flips, struct set *set)
{
    uint64_t before = nanoseconds();
    int found = choose(queue, p, size, most_flips, set);
    choosing += nanoseconds() - before;
    return found;
}

/* The answer of decode_sets_restarted. The numbers become the time of the call and that of its choices, in ns. */
static uint64_t decode_sets_by_clock(const uint8_t *description, size_t description_len, const uint8_t *channel, size_t channel_len,
                                     uint32_t most_flips, uint32_t limit, uint8_t *payload, size_t payload_len, uint64_t *numbers)
{
    choosing = 0;
    uint64_t before = nanoseconds();
    uint64_t number = decode_sets(description, description_len, channel, channel_len, most_flips, limit, payload, payload_len, RESTARTED,
                                  choose_by_clock);
    numbers[0] = nanoseconds() - before;
    numbers[1] = choosing;
    return number;
}

#endif
