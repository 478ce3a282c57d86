/* Checks and runs document 01's image of 40 bytes. From the top folder, once `tools/staticlib` has been run:

       cc -std=c99 -Wall -Wextra -Iinclude tests/c/example.c target/staticlib/libfirmware.a -o target/example
       target/example

   It prints

       verdict 0 0
       answer 0 0, steps 1, entries 1, trace 0
*/

#include "hermes.h"

#include <inttypes.h>
#include <stdio.h>

static const uint8_t image[40] = {
    0x01, 0x00, 0x01, 0x00, 0x00, 0x00, 0x01, 0x00, 0x00, 0x00, /* format, counts */
    0x14, 0x00, 0x1c, 0x00, 0x1c, 0x00, 0x28, 0x00, 0x28, 0x00, /* offsets, total */
    0x00, 0x00, 0x00, 0x00, 0x00, 0x00, 0x00, 0x00,             /* a procedure without variables; its body is node 0 */
    0x01, 0x00, 0x00, 0x00, 0x00, 0x00, 0x00, 0x00, 0x00, 0x00, 0xff, 0xff, /* the empty statement */
};

static uint64_t work[HERMES_WORK_WORDS];

int main(void)
{
    uint64_t verdict[2];
    uint64_t answer[4];
    uint64_t lengths[1] = {0};
    uint64_t store[1] = {0};
    uint32_t trace[1];

    hermes_check(image, sizeof image, verdict, 2);
    printf("verdict %" PRIu64 " %" PRIu64 "\n", verdict[0], verdict[1]);

    /* No parameters: both lists are lent with length 0. */
    hermes_run(image, sizeof image, false, lengths, 0, store, 0, work, HERMES_WORK_WORDS, 1, trace, 1, answer, 4);
    printf("answer %" PRIu64 " %" PRIu64 ", steps %" PRIu64 ", entries %" PRIu64 ", trace %" PRIu32 "\n",
           answer[0], answer[1], answer[2], answer[3], trace[0]);
    return 0;
}
