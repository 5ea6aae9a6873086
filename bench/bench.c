/* Runs the largest scripts many times through the C entry and prints the time per line.
 * A script has at most 1,024 lines; each is run on a fresh board, whose making and opening is measured by itself. */
#include <stdint.h>
#include <stdio.h>
#include <stdlib.h>
#include <string.h>
#include <time.h>

#include "job_board.h"

enum { MOST_BYTES = 16384, MOST_LINES = 1024, ANSWER_BYTES = 32, ROUNDS = 2000 };

struct script {
    const char *name;
    size_t len, lines;
    char text[MOST_BYTES + 64];
};

static uint8_t answers[MOST_LINES * ANSWER_BYTES];

/* One more line, unless the script is full; whether there was room. */
static int add(struct script *s, const char *form, unsigned a, unsigned b, unsigned c)
{
    int n = snprintf(s->text + s->len, sizeof s->text - s->len, form, a, b, c);

    if (s->lines >= MOST_LINES || n < 0 || s->len + (size_t)n > MOST_BYTES) {
        s->text[s->len] = '\0';
        return 0;
    }
    s->len += (size_t)n;
    s->lines++;
    return 1;
}

static void opening(struct script *s) { s->name = "nothing (board made and opened)"; }

static void values(struct script *s)
{
    s->name = "value";
    for (unsigned i = 0; add(s, "V %u %u\n", i % 4, i % 128, 0); i++) {
    }
}

static void reads(struct script *s)
{
    s->name = "read";
    for (unsigned k = 0; k < 4; k++)
        add(s, "B %u\n", k, 0, 0);
    for (unsigned i = 0; add(s, "R %u %u\n", i % 4 + 1, i % 128, 0); i++) {
    }
}

static void writes(struct script *s)
{
    s->name = "write";
    for (unsigned k = 0; k < 4; k++)
        add(s, "B %u\n", k, 0, 0);
    for (unsigned i = 0; add(s, "W %u %u 1\n", i % 4 + 1, i % 8, 0); i++) {
    }
}

static void begins(struct script *s)
{
    s->name = "begin and give up";
    for (unsigned t = 1; add(s, "B %u\n", t % 4, 0, 0) && add(s, "G %u\n", t, 0, 0); t++) {
    }
}

/* 256 write sets, each validated against none and applied at home. */
static void commits(struct script *s)
{
    s->name = "begin, write, commit, apply at home";
    for (unsigned t = 1; t <= 256; t++) {
        add(s, "B 0\n", 0, 0, 0);
        add(s, "W %u %u 1\n", t, t % 16 * 8, 0);
        add(s, "C %u\n", t, 0, 0);
        add(s, "A 0 %u\n", t, 0, 0);
    }
}

/* Numbers that station 1 never sees: what it commits is validated against all of them. */
static void validations(struct script *s)
{
    s->name = "begin, write, commit against 192 numbers";
    for (unsigned t = 1; t <= 192; t++) {
        add(s, "B 0\n", 0, 0, 0);
        add(s, "W %u %u 1\n", t, t % 15 * 8, 0);
        add(s, "C %u\n", t, 0, 0);
        if (t % 15 == 0)
            add(s, "D 0 15\n", 0, 0, 0);
    }
    for (unsigned t = 193; add(s, "B 1\n", 0, 0, 0) && add(s, "W %u 0 1\n", t, 0, 0) && add(s, "C %u\n", t, 0, 0); t++) {
    }
}

/* All write sets of eight objects, carried to every other station by drains. */
static void drains(struct script *s)
{
    s->name = "eight writes a commit, drained everywhere";
    for (unsigned t = 1; t <= 96; t++) {
        add(s, "B 0\n", 0, 0, 0);
        for (unsigned i = 0; i < 8; i++)
            add(s, "W %u %u 1\n", t, t % 16 * 8 + i, 0);
        add(s, "C %u\n", t, 0, 0);
        if (t % 8 == 0)
            add(s, "D 0 8\n", 0, 0, 0);
    }
    for (unsigned k = 1; k < 4; k++)
        add(s, "D %u 256\n", k, 0, 0);
}

static void forms(struct script *s)
{
    s->name = "not understood";
    while (add(s, "W 1 2 03 4 5\n", 0, 0, 0)) {
    }
}

static double nanoseconds(const struct script *s)
{
    struct timespec from, to;

    clock_gettime(CLOCK_MONOTONIC, &from);
    for (int i = 0; i < ROUNDS; i++) {
        struct job_board_outcome out = job_board_run((const uint8_t *)s->text, s->len, answers, sizeof answers);

        if (out.status != JOB_BOARD_RUN) {
            fprintf(stderr, "bench: %s: status %u\n", s->name, (unsigned)out.status);
            exit(EXIT_FAILURE);
        }
    }
    clock_gettime(CLOCK_MONOTONIC, &to);
    return ((double)(to.tv_sec - from.tv_sec) * 1e9 + (double)(to.tv_nsec - from.tv_nsec)) / ROUNDS;
}

int main(void)
{
    void (*const all[])(struct script *) = {opening, values, reads, writes, begins, commits, validations, drains, forms};
    double alone = 0;

    printf("%-45s %6s %12s %12s\n", "script", "lines", "ns a run", "ns a line");
    for (size_t i = 0; i < sizeof all / sizeof *all; i++) {
        static struct script s;
        double run;

        memset(&s, 0, sizeof s);
        all[i](&s);
        run = nanoseconds(&s);
        if (s.lines == 0)
            alone = run;
        printf("%-45s %6zu %12.0f %12.1f\n", s.name, s.lines, run, s.lines ? (run - alone) / (double)s.lines : 0.0);
    }
    return EXIT_SUCCESS;
}
