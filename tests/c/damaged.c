/*
 * Damaged lists through the C face. After each call everything that the header promises of any bytes is looked at.
 *
 *   damaged [LISTS [SEED]]      100,000 lists from seed 1, unless said otherwise
 *
 * List i is made from SEED + i alone, so `damaged 1 S` makes the list of seed S again.
 */
#include "saphyr_events.h"

#include <inttypes.h>
#include <stdio.h>
#include <stdlib.h>
#include <string.h>

#include "lists.h"

/* What is lent, in the order of the call; the first two are only read. */
enum { TOKENS, TEXT, EVENTS, STATES, ANCHORS, HANDLES, ANSWER, BUFFERS };

static const char *const NAMES[BUFFERS] = {"token list", "text",    "events", "open states",
                                           "anchors",    "handles", "answer"};

/* A buffer in a block of its own, with a red zone before and after it, at any alignment. */
enum { ZONE = 64, RED = 0xC3 };
struct lent {
    uint8_t *block, *bytes;
    size_t block_len, len;
};

/* One call, and a copy of what each block held before it. */
struct call {
    struct lent lent[BUFFERS];
    uint8_t *before[BUFFERS];
    uint32_t keep, forget, returned;
};

static uint64_t current;

static void fail(const char *what, const char *of) {
    printf("damaged: seed %" PRIu64 ": %s%s%s\n", current, of, *of ? ": " : "", what);
    exit(1);
}

static void *memory(size_t len) {
    void *block = malloc(len);
    if (!block) {
        fputs("damaged: out of memory\n", stderr);
        exit(2);
    }
    return block;
}

static struct lent lend(struct rng *rng, size_t len, int fill) {
    struct lent lent = {.len = len};
    size_t shift = below(rng, 8);
    lent.block_len = 2 * ZONE + 8 + len;
    lent.block = memory(lent.block_len);
    lent.bytes = lent.block + ZONE + shift;
    memset(lent.block, RED, lent.block_len);
    memset(lent.bytes, fill, len);
    return lent;
}

static int all(const uint8_t *bytes, size_t len, uint8_t byte) {
    for (size_t i = 0; i < len; i++)
        if (bytes[i] != byte) return 0;
    return 1;
}

static uint32_t word(const uint8_t *bytes) {
    return bytes[0] | (uint32_t)bytes[1] << 8 | (uint32_t)bytes[2] << 16 | (uint32_t)bytes[3] << 24;
}

/* Mostly room enough, else any length, also one that ends in less than a place. */
static size_t room(struct rng *rng, size_t enough) {
    return below(rng, 3) ? enough + below(rng, 16) : below(rng, enough + 1);
}

static void make(struct rng *rng, struct call *call, int fill) {
    static struct list list;
    make_list(rng, &list);
    size_t tokens = list.tokens_len / SAPHYR_TOKEN_BYTES + 1;
    size_t answer = below(rng, 4) ? 12 + below(rng, 4) : below(rng, 16);
    size_t lens[BUFFERS] = {list.tokens_len,
                            list.text_len,
                            room(rng, SAPHYR_EVENTS_BYTES(tokens)),
                            room(rng, SAPHYR_STATES_BYTES(tokens)),
                            room(rng, SAPHYR_ANCHORS_BYTES(tokens)),
                            room(rng, SAPHYR_HANDLES_BYTES(tokens)),
                            answer};
    for (int i = 0; i < BUFFERS; i++) call->lent[i] = lend(rng, lens[i], fill);
    memcpy(call->lent[TOKENS].bytes, list.tokens, list.tokens_len);
    memcpy(call->lent[TEXT].bytes, list.text, list.text_len);
    call->keep = below(rng, 2) ? 0 : (uint32_t)next(rng);
    call->forget = below(rng, 2) ? 0 : (uint32_t)next(rng);
}

static void run(struct call *call) {
    struct lent *l = call->lent;
    call->returned = saphyr_run(l[TOKENS].bytes, l[TOKENS].len, l[TEXT].bytes, l[TEXT].len, call->keep, call->forget,
                                l[EVENTS].bytes, l[EVENTS].len, l[STATES].bytes, l[STATES].len, l[ANCHORS].bytes,
                                l[ANCHORS].len, l[HANDLES].bytes, l[HANDLES].len, l[ANSWER].bytes, l[ANSWER].len);
}

/* The numbers of the run. */
static int known(uint32_t number) {
    return number <= 14 || (20 <= number && number <= 28);
}

/* Each byte of block i outside of the first `len` bytes of its buffer is as it was. */
static void untouched_past(const struct call *call, int i, size_t len, const char *what) {
    const struct lent *l = &call->lent[i];
    size_t from = (size_t)(l->bytes - l->block);
    const uint8_t *before = call->before[i];
    if (memcmp(before, l->block, from)) fail("bytes before the buffer changed", NAMES[i]);
    if (memcmp(before + from + len, l->bytes + len, l->len - len)) fail(what, NAMES[i]);
    from += l->len;
    if (memcmp(before + from, l->block + from, l->block_len - from)) fail("bytes after the buffer changed", NAMES[i]);
}

static void check_28(const struct call *call) {
    if (call->returned != 28) fail("28 must be returned for a short answer buffer", "");
    for (int i = 0; i < BUFFERS; i++) untouched_past(call, i, 0, "28 touches nothing");
}

static void check_answer(const struct call *call) {
    const struct lent *l = call->lent;
    uint32_t number = word(l[ANSWER].bytes), count = word(l[ANSWER].bytes + 4);
    if (number != call->returned) fail("the returned number is another", "answer");
    if (!known(number) || number == 28) fail("no number of the run", "answer");
    if (count > l[EVENTS].len / SAPHYR_EVENT_BYTES) fail("more events than there is room for", "answer");
    if (number >= 20 && number != 21 && word(l[ANSWER].bytes + 8) != 0) fail("the place must be 0", "answer");
    untouched_past(call, TOKENS, 0, "a lent list changed");
    untouched_past(call, TEXT, 0, "a lent text changed");
    untouched_past(call, EVENTS, count * SAPHYR_EVENT_BYTES, "bytes past the count changed");
    untouched_past(call, ANSWER, SAPHYR_ANSWER_BYTES, "bytes past 12 changed");
    for (int i = STATES; i <= HANDLES; i++) {
        untouched_past(call, i, l[i].len, "");
        if (!all(l[i].bytes, l[i].len, 0)) fail("work memory is not zero", NAMES[i]);
    }
}

static void check(const struct call *call) {
    if (call->lent[ANSWER].len < SAPHYR_ANSWER_BYTES)
        check_28(call);
    else
        check_answer(call);
}

/* The same call once more: the blocks as before, and then as after the first. */
static void again(struct call *call) {
    uint32_t returned = call->returned;
    uint8_t *after[BUFFERS];
    for (int i = 0; i < BUFFERS; i++) {
        struct lent *l = &call->lent[i];
        after[i] = memory(l->block_len);
        memcpy(after[i], l->block, l->block_len);
        memcpy(l->block, call->before[i], l->block_len);
    }
    run(call);
    if (call->returned != returned) fail("the second call returned another number", "");
    for (int i = 0; i < BUFFERS; i++) {
        if (memcmp(after[i], call->lent[i].block, call->lent[i].block_len)) fail("the second call differs", NAMES[i]);
        free(after[i]);
    }
}

static uint32_t one(uint64_t seed) {
    struct rng rng = {seed};
    struct call call;
    current = seed;
    make(&rng, &call, (int)below(&rng, 256));
    for (int i = 0; i < BUFFERS; i++) {
        call.before[i] = memory(call.lent[i].block_len);
        memcpy(call.before[i], call.lent[i].block, call.lent[i].block_len);
    }
    run(&call);
    check(&call);
    again(&call);
    for (int i = 0; i < BUFFERS; i++) {
        free(call.before[i]);
        free(call.lent[i].block);
    }
    return call.returned;
}

enum { LISTS = 100000, NUMBERS = 29 };

/* A generator that no longer reaches a number tests less than it says; 26 and 27 need longer inputs. */
static int reaches_all(const uint64_t totals[NUMBERS]) {
    for (uint32_t number = 0; number < NUMBERS; number++)
        if (known(number) && number != 26 && number != 27 && totals[number] == 0) {
            printf("damaged: no list was answered %" PRIu32 "\n", number);
            return 0;
        }
    return 1;
}

int main(int argc, char **argv) {
    uint64_t lists = argc > 1 ? strtoull(argv[1], NULL, 10) : LISTS;
    uint64_t seed = argc > 2 ? strtoull(argv[2], NULL, 10) : 1;
    uint64_t totals[NUMBERS] = {0};
    for (uint64_t i = 0; i < lists; i++) totals[one(seed + i)]++;
    printf("%" PRIu64 " damaged lists, 0 wrong; by number:", lists);
    for (int number = 0; number < NUMBERS; number++)
        if (totals[number]) printf(" %d:%" PRIu64, number, totals[number]);
    printf("\n");
    return lists >= LISTS && !reaches_all(totals);
}
