/* Contact readings of line-and-arc sections: a sheet text in, its listing out (docs/FORMAT.md).
 *
 * Both functions are proved to do what they say for every text. They keep nothing between calls, allocate nothing and
 * may be called from several threads at once. They need about 2 MB of stack. What is proved assumes the arithmetic of
 * IEEE 754 in its default modes: a thread that has set another rounding mode (fesetround), or flushes subnormal numbers
 * to zero, gets other readings. The code is for x86-64-v2 and later processors, and does not look which it is run by. */
#ifndef SEWQIRUN_H
#define SEWQIRUN_H

#include <stddef.h>
#include <stdint.h>

/* No listing has more bytes: the size of the array that is lent for one. */
#define SEWQIRUN_LONGEST 192352

#ifdef __cplusplus
extern "C" {
#endif

/* SEWQIRUN_LONGEST, from the library. */
size_t sewqirun_longest(void);

/* Writes the listing of the `length` bytes at `text` from the front of `out`, which has SEWQIRUN_LONGEST bytes, and
 * returns how long it is, at most SEWQIRUN_LONGEST; the bytes behind it stay as they were. A refused text gives one
 * line X,number,place. Both arrays are the caller's; `text` is only read and must not overlap `out`; it may be any
 * address where `length` is 0, but not a null pointer. No byte 0 is written behind the listing. */
size_t sewqirun_listing(const uint8_t *text, size_t length, uint8_t *out);

#ifdef __cplusplus
}
#endif

#endif
