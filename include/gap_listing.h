/* The listing of a plan, for a controller's C program. */
#ifndef GAP_LISTING_H
#define GAP_LISTING_H

#include <stddef.h>
#include <stdint.h>

#ifdef __cplusplus
extern "C" {
#endif

/* A buffer has to have at least this many bytes; no listing is longer than 299. */
#define GAP_LISTING_ROOM 512

/* Writes the listing of the plan text plan[0 .. plan_len) at the front of buffer[0 .. buffer_len) and returns its length.
 * The bytes of the buffer behind the listing stay as they were.
 *
 * Where the buffer has less than GAP_LISTING_ROOM bytes it returns 0 and leaves the whole buffer as it was. A listing is
 * never empty, so 0 means nothing else. A plan at fault is no failure: its listing is the line 'fault,cause,line,field'.
 *
 * Both areas belong to the caller, before and after the call, and must not overlap. The plan is only read. Nothing is
 * allocated, no state is kept between calls, nothing panics, and every input has an answer. There is no recursion: give the
 * call 64 KiB of stack (built for x86-64, it used at most 46,440 bytes over all plans of the tests and examples).
 *
 * Beside the static library, a build needs memcpy and memset, and nothing else. */
size_t gap_listing(const uint8_t *plan, size_t plan_len, uint8_t *buffer, size_t buffer_len);

#ifdef __cplusplus
}
#endif

#endif
