/*
 * The memory to lend as the header has it: a line for each number of tokens, with the bytes of events, open states,
 * anchors and handles. C and C++ alike. A test of host/saphyr-events holds these lines to the Rust's `rooms`.
 */
#include "saphyr_events.h"

#include <stdio.h>

/* The macros are constant expressions: memory may be set aside before the program runs. */
static unsigned char events[SAPHYR_EVENTS_BYTES(2)], states[SAPHYR_STATES_BYTES(2)], anchors[SAPHYR_ANCHORS_BYTES(2)],
    handles[SAPHYR_HANDLES_BYTES(2)];

int main(void) {
    if (sizeof events != 288 || sizeof states != 16 || sizeof anchors != 24 || sizeof handles != 32) {
        return 1;
    }
    for (size_t tokens = 0; tokens <= SAPHYR_MAX_TOKENS; tokens++) {
        printf("%zu %zu %zu %zu %zu\n", tokens, SAPHYR_EVENTS_BYTES(tokens), SAPHYR_STATES_BYTES(tokens),
               SAPHYR_ANCHORS_BYTES(tokens), SAPHYR_HANDLES_BYTES(tokens));
    }
    return 0;
}
