/* Flip decoding with sets of up to three indices, full, with half restart and restarted. */
#ifndef PLAIN_SETS_H
#define PLAIN_SETS_H

#include "decode.h"

enum { MOST_FLIPS = 3, MOST_LIMIT = 512, DOUBTFUL = 20, PENALTY = 6 };

/* A set's key: its metric, then a field for each of three indices, the first in the highest bits, with one more than the index, or 0 where
 * there is none. Keys compare as sets do: by metric, then by the indices from the first on. */
enum { FIELD = LARGEST_N + 1, FIELDS = MOST_FLIPS * FIELD };

struct set {
    size_t indices[MOST_FLIPS], count;
    uint64_t key;
};

/* The sets of later trials, ascending, in room for as many as there may be: those tried, then untried ones. */
struct queue {
    uint64_t keys[SIZE];
    size_t tried, count, room;
};

static struct set read_key(uint64_t key)
{
    struct set set = {{0}, 0, key};
    for (unsigned place = MOST_FLIPS; place-- > 0;) {
        size_t field = key >> place * FIELD & (2 * SIZE - 1);
        if (field > 0)
            set.indices[set.count++] = field - 1;
    }
    return set;
}

/* Puts a key into its place among the untried ones. In a full room the last one gives way, or the key is turned away. */
static void insert(struct queue *queue, uint64_t key)
{
    if (queue->count == queue->room && key >= queue->keys[queue->count - 1])
        return;
    size_t place = queue->count < queue->room ? queue->count++ : queue->count - 1;
    for (; place > queue->tried && queue->keys[place - 1] > key; place--)
        queue->keys[place] = queue->keys[place - 1];
    queue->keys[place] = key;
}

/* Adds the sets with one information index more, above the others, by the leaf values of the set's trial. Up to its largest index these
 * are those of the trial that gave it its metric. */
static void extend(struct queue *queue, const struct pass *p, size_t size, const struct set *set)
{
    uint64_t metric = set->key >> FIELDS, fields = set->key & (((uint64_t)1 << FIELDS) - 1);
    unsigned shift = (MOST_FLIPS - 1 - (unsigned)set->count) * FIELD;
    for (size_t i = set->count ? set->indices[set->count - 1] + 1 : 0; i < size; i++) {
        if (!p->rules[i])
            continue;
        uint64_t magnitude = (uint64_t)abs(p->leaves[i]);
        metric += magnitude <= DOUBTFUL ? PENALTY : 0;
        insert(queue, (metric + magnitude) << FIELDS | fields | (uint64_t)(i + 1) << shift);
    }
}

/* Puts the set of the next trial in the place of that of the last one, which failed; gives 0 where none is left. */
static int choose(struct queue *queue, const struct pass *p, size_t size, size_t most_flips, struct set *set)
{
    if (set->count < most_flips)
        extend(queue, p, size, set);
    if (queue->tried == queue->count)
        return 0;
    *set = read_key(queue->keys[queue->tried++]);
    return 1;
}

typedef int chooser(struct queue *, const struct pass *, size_t, size_t, struct set *);

static void set_trial(struct pass *p, const struct code *code, const int8_t *channel, const uint8_t *first, const struct set *set,
                      enum restart restart)
{
    size_t q = force(p, code, first, set->indices[0], restart);
    for (size_t i = 0; i < set->count; i++)
        p->rules[set->indices[i]] = 3;
    run(p, channel, code->size, q);
    for (size_t i = 0; i < set->count; i++)
        p->rules[set->indices[i]] = 1;
}

/* A call that was read: what is decoded, and how. */
struct search {
    struct code code;
    const int8_t *channel;
    size_t most_flips, limit;
    enum restart restart;
};

/* Makes trials until one passes; gives whether one does. The message of the last trial is left in `message`, its number in `trial`. */
static int make_set_trials(struct pass *p, const struct search *s, chooser *next, uint8_t *message, size_t *trial)
{
    *trial = 1;
    run(p, s->channel, s->code.size, 0);
    take(&s->code, p->bits, message);
    if (passes(&s->code, message))
        return 1;
    if (s->limit == 1)
        return 0;
    uint8_t first[SIZE];
    struct queue queue;
    struct set set = {{0}, 0, 0};
    memcpy(first, p->bits, s->code.size);
    queue.tried = queue.count = 0;
    queue.room = s->limit - 1;
    while (*trial < s->limit && next(&queue, p, s->code.size, s->most_flips, &set)) {
        ++*trial;
        set_trial(p, &s->code, s->channel, first, &set, s->restart);
        take(&s->code, p->bits, message);
        if (passes(&s->code, message))
            return 1;
    }
    return 0;
}

/* Refusals 26, 14 and 15, or 0. */
static uint64_t judge_search(const struct search *s, size_t payload_len)
{
    if (s->most_flips < 1 || s->most_flips > MOST_FLIPS)
        return answer(26, 0, 0);
    if (s->limit < 1 || s->limit > (s->most_flips == 1 ? s->code.k + s->code.r + 1 : MOST_LIMIT))
        return answer(14, 0, 0);
    return payload_len != bytes_for(s->code.k) ? answer(15, 0, 0) : 0;
}

static uint64_t search(const struct search *s, chooser *next, uint8_t *payload)
{
    struct pass pass;
    uint8_t message[SIZE];
    size_t trial;
    start(&pass, &s->code);
    if (!make_set_trials(&pass, s, next, message, &trial))
        return answer(16, trial, pass.steps);
    pack(message, s->code.k, payload);
    return answer(0, trial, pass.steps);
}

static uint64_t decode_sets(const uint8_t *description, size_t description_len, const uint8_t *channel, size_t channel_len,
                            uint32_t most_flips, uint32_t limit, uint8_t *payload, size_t payload_len, enum restart restart, chooser *next)
{
    struct search s = {.channel = (const int8_t *)channel, .most_flips = most_flips, .limit = limit, .restart = restart};
    uint64_t refusal = read_call(description, description_len, s.channel, channel_len, &s.code);
    if (!refusal)
        refusal = judge_search(&s, payload_len);
    return refusal ? refusal : search(&s, next, payload);
}

static uint64_t decode_sets_full(const uint8_t *description, size_t description_len, const uint8_t *channel, size_t channel_len,
                                 uint32_t most_flips, uint32_t limit, uint8_t *payload, size_t payload_len)
{
    return decode_sets(description, description_len, channel, channel_len, most_flips, limit, payload, payload_len, FULL, choose);
}

static uint64_t decode_sets_half(const uint8_t *description, size_t description_len, const uint8_t *channel, size_t channel_len,
                                 uint32_t most_flips, uint32_t limit, uint8_t *payload, size_t payload_len)
{
    return decode_sets(description, description_len, channel, channel_len, most_flips, limit, payload, payload_len, HALF, choose);
}

static uint64_t decode_sets_restarted(const uint8_t *description, size_t description_len, const uint8_t *channel, size_t channel_len,
                                      uint32_t most_flips, uint32_t limit, uint8_t *payload, size_t payload_len)
{
    return decode_sets(description, description_len, channel, channel_len, most_flips, limit, payload, payload_len, RESTARTED, choose);
}

#endif
