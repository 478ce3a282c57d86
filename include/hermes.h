/* The checker and the runner of Hermes images, for C. `tools/staticlib` makes target/staticlib/libfirmware.a. */

#ifndef HERMES_H
#define HERMES_H

#include <stdbool.h>
#include <stddef.h>
#include <stdint.h>

#ifdef __cplusplus
extern "C" {
#endif

/* Nothing has to be checked first: any bytes, lengths, cells and budget have an answer. The slices of one call must not overlap.
   A call writes only to slices that are not const, never past their lengths, and keeps nothing.

   An answer is a list of numbers; it gets as many of them as fit, then zeros. Number and place are those of document 01's tables:
   0 and 0 when accepted or finished; 1 to 13 the check's refusals; 19 to 28 the run's. */

#define HERMES_WORK_WORDS 8192u    /* fewer are refused by 19 */
#define HERMES_CELL_ENTRY 65536u   /* a trace entry below is a node's number (a step); from it on, a cell's number plus this */

/* The verdict on an image. Answer: number, place. */
void hermes_check(const uint8_t *image, size_t image_len, uint64_t *answer, size_t answer_len);

/* Checks an image and runs its last procedure, backwards if inverse. Answer: number, place, steps, trace entries.

   lengths    one for each parameter: 1 for a scalar, at most 4096 for an array
   store      one word for each cell, parameters in order; changed only if the number is 0
   work       at least HERMES_WORK_WORDS words, whatever they hold; all 0 afterwards, whatever the answer
   budget     the most steps that may be taken
   trace      gets the first entries that fit, then zeros; the answer counts all of them */
void hermes_run(const uint8_t *image, size_t image_len, bool inverse, const uint64_t *lengths, size_t lengths_len,
                uint64_t *store, size_t store_len, uint64_t *work, size_t work_len, uint32_t budget,
                uint32_t *trace, size_t trace_len, uint64_t *answer, size_t answer_len);

#ifdef __cplusplus
}
#endif

#endif
