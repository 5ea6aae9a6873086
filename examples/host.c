/* An example host: runs the script on standard input through the C entry and
 * writes its answers, as the program jobboard does. */
#include <stdint.h>
#include <stdio.h>
#include <stdlib.h>

#include "job_board.h"

enum { MOST_BYTES = 16384, MOST_LINES = 1024, ANSWER_BYTES = 32 };

int main(void)
{
    /* One byte more than a script may have, so that a longer one is seen. */
    static uint8_t script[MOST_BYTES + 1];
    static uint8_t answers[MOST_LINES * ANSWER_BYTES];
    size_t len = fread(script, 1, sizeof script, stdin);
    struct job_board_outcome out = job_board_run(script, len, answers, sizeof answers);

    switch (out.status) {
    case JOB_BOARD_RUN:
        return fwrite(answers, 1, out.length, stdout) == out.length ? EXIT_SUCCESS : EXIT_FAILURE;
    case JOB_BOARD_TOO_LONG:
        puts("no 7 0");
        return EXIT_FAILURE;
    default:
        fprintf(stderr, "host: status %u, length %zu\n", (unsigned)out.status, out.length);
        return EXIT_FAILURE;
    }
}
