/*
 * Runs a script on an event channel of 1,024 slots. The function is in librunner.a. Each call opens a channel of its
 * own; nothing is kept from one call to the next.
 *
 * What a host owes:
 *   - Neither pointer is null, also where its length is 0.
 *   - script has script_len bytes to read, out has out_len bytes to write.
 *   - The two don't overlap.
 *
 * The answer:
 *   0 or more   so many bytes of lines are at the start of out; the bytes behind them are as they were
 *   -13         the first record is no CH, a later one is, or there is no byte at all
 *   -14         a mark that is none of the six
 *   -15         the bytes end inside a mark or a body
 *   -16         the next line is longer than what is left of out
 *
 * After -13, -14 and -15, out is untouched. After -16 the lines that fitted are at its start, each one whole, and the
 * bytes behind them are as they were; how many lines that are isn't told. A call that the channel refuses is no fault:
 * it gives a line, as "WR no 8".
 */
#ifndef CHANNEL_RUN_H
#define CHANNEL_RUN_H

#include <stddef.h>
#include <stdint.h>

#ifdef __cplusplus
extern "C" {
#endif

enum {
    CHANNEL_RUN_OPENING = 13,
    CHANNEL_RUN_MARK = 14,
    CHANNEL_RUN_CUT_SHORT = 15,
    CHANNEL_RUN_OUTPUT_FULL = 16
};

int64_t channel_run_script(const uint8_t *script, size_t script_len, uint8_t *out, size_t out_len);

#ifdef __cplusplus
}
#endif

#endif
