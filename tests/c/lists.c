#include "lists.h"

#include <string.h>

/* Token kinds by name, as in saphyr_events.h. */
enum {
    STREAM_START = 1,
    STREAM_END,
    VERSION_DIRECTIVE,
    TAG_DIRECTIVE,
    RESERVED_DIRECTIVE,
    DOCUMENT_START,
    DOCUMENT_END,
    BYTE_ORDER_MARK,
    BLOCK_SEQUENCE_START,
    BLOCK_MAPPING_START,
    BLOCK_END,
    FLOW_SEQUENCE_START,
    FLOW_SEQUENCE_END,
    FLOW_MAPPING_START,
    FLOW_MAPPING_END,
    BLOCK_ENTRY,
    FLOW_ENTRY,
    KEY,
    VALUE,
    ALIAS,
    ANCHOR,
    TAG,
    SCALAR
};

uint64_t next(struct rng *rng) {
    uint64_t z = rng->state += 0x9E3779B97F4A7C15u;
    z = (z ^ (z >> 30)) * 0xBF58476D1CE4E5B9u;
    z = (z ^ (z >> 27)) * 0x94D049BB133111EBu;
    return z ^ (z >> 31);
}

size_t below(struct rng *rng, size_t n) {
    return n ? (size_t)(next(rng) % n) : 0;
}

static void put(uint8_t *at, uint32_t number) {
    for (int i = 0; i < 4; i++) at[i] = (uint8_t)(number >> (8 * i));
}

/* A range of the text, mostly of few bytes, so that names meet again. */
static void put_range(struct rng *rng, const struct list *list, uint8_t *at) {
    size_t from = below(rng, list->text_len + 1);
    size_t to = from + below(rng, list->text_len - from + 1) % 4;
    put(at, (uint32_t)from);
    put(at + 4, (uint32_t)to);
}

/* Appends a token with sound ranges; a full list stays as it is. */
static void add(struct rng *rng, struct list *list, uint32_t kind) {
    if (list->tokens_len == sizeof list->tokens) return;
    uint8_t *at = list->tokens + list->tokens_len;
    uint32_t start = (uint32_t)(list->tokens_len + below(rng, 8));
    put(at, kind);
    put(at + 4, start);
    put(at + 8, start + (uint32_t)below(rng, 8));
    put_range(rng, list, at + 12);
    put_range(rng, list, at + 20);
    put(at + 28, (uint32_t)below(rng, 5));
    list->tokens_len += 32;
}

/* A token whose first range holds `!x!` at the start of the text. */
static void add_handle(struct rng *rng, struct list *list, uint32_t kind) {
    size_t at = list->tokens_len;
    add(rng, list, kind);
    if (list->tokens_len == at || list->text_len < 3) return;
    put(list->tokens + at + 12, 0);
    put(list->tokens + at + 16, 3);
}

static void add_properties(struct rng *rng, struct list *list) {
    switch (below(rng, 8)) {
    case 0: add(rng, list, ANCHOR); break;
    case 1: add(rng, list, TAG); break;
    case 2: add_handle(rng, list, TAG); break;
    case 3: add(rng, list, ANCHOR), add(rng, list, TAG); break;
    default: break;
    }
}

static void add_node(struct rng *rng, struct list *list, int depth);

/* What repeats inside a collection: `before`, a node, and for mappings Value and a node. */
static void add_entries(struct rng *rng, struct list *list, uint32_t before, uint32_t between, int depth) {
    for (size_t i = below(rng, 4); i > 0; i--) {
        if (before) add(rng, list, before);
        add_node(rng, list, depth + 1);
        if (before == KEY) {
            add(rng, list, VALUE);
            add_node(rng, list, depth + 1);
        }
        if (between && i > 1) add(rng, list, between);
    }
}

static void add_collection(struct rng *rng, struct list *list, int depth) {
    static const struct {
        uint32_t start, before, between, end;
    } FORMS[] = {
        {BLOCK_SEQUENCE_START, BLOCK_ENTRY, 0, BLOCK_END},
        {BLOCK_MAPPING_START, KEY, 0, BLOCK_END},
        {FLOW_SEQUENCE_START, 0, FLOW_ENTRY, FLOW_SEQUENCE_END},
        {FLOW_SEQUENCE_START, KEY, FLOW_ENTRY, FLOW_SEQUENCE_END},
        {FLOW_MAPPING_START, KEY, FLOW_ENTRY, FLOW_MAPPING_END},
    };
    size_t form = below(rng, sizeof FORMS / sizeof *FORMS);
    add(rng, list, FORMS[form].start);
    add_entries(rng, list, FORMS[form].before, FORMS[form].between, depth);
    add(rng, list, FORMS[form].end);
}

static void add_node(struct rng *rng, struct list *list, int depth) {
    size_t choice = below(rng, 8);
    if (choice == 0) {
        add(rng, list, ALIAS);
        return;
    }
    add_properties(rng, list);
    if (choice < 5 || depth > 3)
        add(rng, list, SCALAR);
    else
        add_collection(rng, list, depth);
}

static void add_directives(struct rng *rng, struct list *list) {
    for (size_t i = below(rng, 3); i > 0; i--) {
        switch (below(rng, 4)) {
        case 0: add(rng, list, VERSION_DIRECTIVE); break;
        case 1: add(rng, list, RESERVED_DIRECTIVE); break;
        default: add_handle(rng, list, TAG_DIRECTIVE); break;
        }
    }
}

/* A list that mostly runs to its end; it stops short where it is full. */
static void fill_sound(struct rng *rng, struct list *list) {
    list->tokens_len = 0;
    add(rng, list, STREAM_START);
    for (size_t i = below(rng, 4); i > 0; i--) {
        if (below(rng, 4) == 0) add(rng, list, BYTE_ORDER_MARK);
        if (below(rng, 2)) {
            add_directives(rng, list);
            add(rng, list, DOCUMENT_START);
        }
        add_node(rng, list, 0);
        if (below(rng, 2)) add(rng, list, DOCUMENT_END);
    }
    add(rng, list, STREAM_END);
}

static void fill_bytes(struct rng *rng, struct list *list) {
    list->tokens_len = below(rng, sizeof list->tokens + 1);
    if (below(rng, 2)) list->tokens_len -= list->tokens_len % 32;
    for (size_t i = 0; i < list->tokens_len; i++) list->tokens[i] = (uint8_t)next(rng);
}

/* Records of any kinds in any order. */
static void fill_kinds(struct rng *rng, struct list *list) {
    list->tokens_len = 0;
    if (below(rng, 8)) add(rng, list, STREAM_START);
    for (size_t i = below(rng, 24); i > 0; i--) add(rng, list, 1 + (uint32_t)below(rng, SCALAR));
}

static void fill_text(struct rng *rng, struct list *list) {
    static const uint8_t LETTERS[] = {'!', '!', 'a', 'b', 'x', 0xC3, 0xA9, 0xFF};
    list->text_len = below(rng, MOST_TEXT + 1);
    for (size_t i = 0; i < list->text_len; i++) list->text[i] = LETTERS[below(rng, sizeof LETTERS)];
    if (list->text_len >= 3) memcpy(list->text, "!x!", 3);
}

static void flip(struct rng *rng, uint8_t *bytes, size_t len) {
    for (size_t i = 1 + below(rng, 3); i > 0 && len > 0; i--) bytes[below(rng, len)] ^= (uint8_t)(1u << below(rng, 8));
}

/* Another kind for one record. */
static void change_kind(struct rng *rng, struct list *list) {
    size_t records = list->tokens_len / 32;
    if (records > 0) put(list->tokens + 32 * below(rng, records), 1 + (uint32_t)below(rng, SCALAR));
}

static void damage(struct rng *rng, struct list *list) {
    switch (below(rng, 8)) {
    case 0: flip(rng, list->tokens, list->tokens_len); break;
    case 1: flip(rng, list->text, list->text_len); break;
    case 2: list->tokens_len = below(rng, list->tokens_len + 1); break;
    case 3: list->tokens_len -= 32 * below(rng, list->tokens_len / 32 + 1); break;
    case 4:
    case 5: change_kind(rng, list); break;
    case 6: list->text_len = below(rng, list->text_len + 1); break;
    default: break;
    }
}

void make_list(struct rng *rng, struct list *list) {
    fill_text(rng, list);
    switch (below(rng, 8)) {
    case 0: fill_bytes(rng, list); break;
    case 1:
    case 2: fill_kinds(rng, list); break;
    default: fill_sound(rng, list); break;
    }
    damage(rng, list);
}
