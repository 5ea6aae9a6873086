/* job_board.h: the job board for a host in C.
 *
 * One call runs one script over a fresh board of four replicas, all zeros, and
 * fills a buffer with one answer a line. Nothing is kept between calls, nothing
 * is allocated that outlives one, and calls may come from several threads.
 *
 * A script is text: one call a line, at most 16,384 bytes and 1,024 lines.
 *
 *   B k       begin a transaction at replica k        ok N (its number)
 *   R t j     read object j in transaction t          ok V
 *   W t j v   write value v to object j               ok
 *   C t       commit                                  ok N (the number given),
 *                                                     ok read (nothing written),
 *                                                     abort N (clashes with N)
 *   G t       give up                                 ok
 *   A k n     apply number n at replica k             ok
 *   D k m     drain replica k, at most m times        ok N (how many)
 *   V k j     current value of object j at replica k  ok V
 *
 * A refused line answers "no NUMBER LINE", lines counted from 1; a line that is
 * not understood answers "no 7 LINE". Every answer ends with byte 10.
 *
 * Objects are numbered 0 to 127: object j is field j % 8 of ticket j / 8. The
 * numbers of refusals are listed in docs/REFUSALS.md; those that a line can meet
 * are 1, 2, 3, 4, 5, 7, 26, 27, 28, 29, 30, 31, 32 and 33.
 *
 * Link with libhost.a (rt lib, in crates/host) and the toolchain's liblibc_c.a;
 * the script examples/host.sh does both. A call needs some 64 KiB of stack.
 */
#ifndef JOB_BOARD_H
#define JOB_BOARD_H

#include <stddef.h>
#include <stdint.h>

#ifdef __cplusplus
extern "C" {
#endif

/* How a run came out: `status`, and what `length` then means. */
enum {
    /* The script was run. `length` bytes of answers stand at the front of the
     * buffer; the bytes behind them are as they were. */
    JOB_BOARD_RUN = 0,
    /* The script is too long, in bytes or in lines. No line was run; `length`
     * is 0, and the buffer is as it was. */
    JOB_BOARD_TOO_LONG = 7,
    /* The buffer is too short: it needs 32 bytes a line, `length` in all. No
     * line was run, and the buffer is as it was. */
    JOB_BOARD_SHORT_BUFFER = 9,
    /* There is no memory for the board. No line was run; `length` is 0, and the
     * buffer is as it was. */
    JOB_BOARD_NO_MEMORY = 1000
};

struct job_board_outcome {
    uint32_t status;
    size_t length;
};

/* Runs `script` and fills `answers`. Both pointers must be valid for their
 * lengths and must not overlap; a length of 0 takes any pointer that is not
 * null. */
struct job_board_outcome job_board_run(const uint8_t *script, size_t script_len,
                                       uint8_t *answers, size_t answers_len);

#ifdef __cplusplus
}
#endif

#endif
