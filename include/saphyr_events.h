/*
 * YAML events from a token list: the event machine of saphyr-parser 0.3.3, proved.
 *
 * Link libface.a, which `tools/library.sh` writes to target/staticlib/ (x86-64 Linux). The code allocates nothing,
 * keeps nothing between calls, and never reads or writes outside what is lent to it.
 *
 * Every number in a record is 4 bytes, little-endian; no buffer needs an alignment.
 *
 *   token   32 bytes  kind, start, end, a-from, a-to, b-from, b-to, style
 *   event   48 bytes  kind, start, end, number, style, value-from, value-to,
 *                     tag source, prefix-from, prefix-to, suffix-from, suffix-to
 *   answer  12 bytes  number, count of events written, place
 *
 * Ranges are half-open ranges of the text; positions are copied from the tokens and never judged.
 *
 * Token kinds: 1 StreamStart, 2 StreamEnd, 3 VersionDirective, 4 TagDirective (a handle, b prefix), 5 ReservedDirective,
 * 6 DocumentStart, 7 DocumentEnd, 8 ByteOrderMark, 9 BlockSequenceStart, 10 BlockMappingStart, 11 BlockEnd,
 * 12 FlowSequenceStart, 13 FlowSequenceEnd, 14 FlowMappingStart, 15 FlowMappingEnd, 16 BlockEntry, 17 FlowEntry, 18 Key,
 * 19 Value, 20 Alias (a name), 21 Anchor (a name), 22 Tag (a handle, b suffix), 23 Scalar (a value; style 0 plain,
 * 1 single, 2 double, 3 literal, 4 folded). Fields that a kind does not use are not read.
 *
 * Event kinds: 1 StreamStart, 2 StreamEnd, 3 DocumentStart (number 1 if explicit), 4 DocumentEnd, 5 Alias (number: the
 * anchor's id), 6 Scalar, 7 SequenceStart, 8 SequenceEnd, 9 MappingStart, 10 MappingEnd (6, 7, 9: number is the anchor's
 * id or 0). Tag source: 0 none, 1 the prefix is "tag:yaml.org,2002:", 2 a range of the text. Unused fields are 0.
 *
 * Memory to lend for a list of T tokens, so that no room is ever short, whatever the list: SAPHYR_EVENTS_BYTES(T) bytes
 * of events and SAPHYR_STATES_BYTES(T), SAPHYR_ANCHORS_BYTES(T), SAPHYR_HANDLES_BYTES(T) bytes of work memory, for T up to
 * SAPHYR_MAX_TOKENS (proved: `never_short` in crates/promises/proofs/Demand3.antt). A longer list is answered by 26 in no
 * memory at all. Less may do; numbers 22 to 25 say which was short. The macros are constant expressions where T is one.
 *
 * The numbers:
 *
 *    0  StreamEnd was given                          11  flow sequence: ',' or ']' expected
 *    1  first token is not StreamStart               12  block sequence: '-' expected
 *    2  DocumentStart expected                       13  undeclared "!x!" handle
 *    3  second version directive                     14  the list ended
 *    4  handle twice in one document's directives    20  list length is no multiple of 32
 *    5  byte order mark inside a document            21  bad record; place is its index
 *    6  directive after a document without its end   22  no place for an event
 *    7  alias with no such anchor                    23  no place for an open state
 *    8  node content expected                        24  no place for an anchor
 *    9  block mapping: key expected                  25  no place for a tag handle
 *   10  flow mapping: ',' or '}' expected            26  more than 65,536 tokens
 *                                                    27  text over 16,777,216 bytes
 *                                                    28  answer buffer under 12 bytes
 *
 * The place of 1 to 13 is a start position of a token, that of 14 the end of the last token (0 if there is none),
 * that of the others but 21 is 0.
 */
#ifndef SAPHYR_EVENTS_H
#define SAPHYR_EVENTS_H

#include <stddef.h>
#include <stdint.h>

#define SAPHYR_TOKEN_BYTES 32
#define SAPHYR_EVENT_BYTES 48
#define SAPHYR_STATE_BYTES 8
#define SAPHYR_ANCHOR_BYTES 12
#define SAPHYR_HANDLE_BYTES 16
#define SAPHYR_ANSWER_BYTES 12

/* A list with more tokens is answered by 26, a text with more bytes by 27. */
#define SAPHYR_MAX_TOKENS 65536
#define SAPHYR_MAX_TEXT_BYTES 16777216

#define SAPHYR_EVENTS_BYTES(tokens) ((size_t)3 * SAPHYR_EVENT_BYTES * (tokens))
#define SAPHYR_STATES_BYTES(tokens) ((size_t)SAPHYR_STATE_BYTES * (tokens))
#define SAPHYR_ANCHORS_BYTES(tokens) ((size_t)SAPHYR_ANCHOR_BYTES * (tokens))
#define SAPHYR_HANDLES_BYTES(tokens) ((size_t)SAPHYR_HANDLE_BYTES * (tokens))

#ifdef __cplusplus
extern "C" {
#endif

/*
 * Runs from the first token to StreamEnd or the first refusal, and returns the number that the answer holds too.
 *
 * keep_tags       not 0: %TAG directives hold beyond their document
 * forget_anchors  not 0: names are forgotten at each DocumentStart, as `load` does
 * Lengths are in bytes. A pointer is never null, also where its length is 0, and no two buffers overlap.
 *
 * Afterwards `count` events stand at the start of `events`, and the bytes past them are as they were; `states`,
 * `anchors` and `handles` are all zero; the answer is in the first 12 bytes of `answer`, and the rest is as it was.
 * Any answer, a refusal too, leaves the events written before it standing. 28 touches nothing.
 */
uint32_t saphyr_run(const uint8_t *tokens, size_t tokens_len,
                    const uint8_t *text, size_t text_len,
                    uint32_t keep_tags, uint32_t forget_anchors,
                    uint8_t *events, size_t events_len,
                    uint8_t *states, size_t states_len,
                    uint8_t *anchors, size_t anchors_len,
                    uint8_t *handles, size_t handles_len,
                    uint8_t *answer, size_t answer_len);

/*
 * The walk of `load` over event records, any bytes: whether they are StreamStart, documents of one node each, StreamEnd.
 * Reads kinds only. The answer's number is returned too; its count is 0.
 *
 *    0  they are                                      30  the event at index `place` cannot stand there; the number of
 *   20  events_len is no multiple of 48                   events, if the list ends early
 *   28  answer buffer under 12 bytes; nothing is      31  the event at `place` would be the 1,001st open collection
 *       touched
 *
 * The first met from the left is given. Each accepted run's events pass, or are answered 31.
 */
uint32_t saphyr_load(const uint8_t *events, size_t events_len, uint8_t *answer, size_t answer_len);

#ifdef __cplusplus
}
#endif

#endif
