/* Times reading and judging of one bare data set.

       bench_read FILE           medians over rounds of one call each, in turning order, one "name number" a line
       bench_read FILE read      one call of the library's read (else the walker), for timing the whole program
       bench_read FILE judge     one call of the library's judge

   Times are in nanoseconds a call; the bytes and the row buffer are in memory and touched beforehand. */

#include "common.h"

typedef struct {
    uint32_t code, offset, rows, rule, frame;
} outcome;

typedef outcome call(const uint8_t *data, size_t size, uint32_t *rows, size_t rows_len);

static outcome of_walk(walk_answer a)
{
    return (outcome){a.code, a.offset, a.rows, 0, 0};
}

static outcome call_walk(const uint8_t *data, size_t size, uint32_t *rows, size_t rows_len)
{
    return of_walk(walk(data, size, rows, rows_len));
}

static outcome call_walk_trusting(const uint8_t *data, size_t size, uint32_t *rows, size_t rows_len)
{
    return of_walk(walk_trusting(data, size, rows, rows_len));
}

static outcome of_xa(xa_answer a)
{
    return (outcome){a.code, a.offset, a.rows, a.rule, a.frame};
}

static outcome call_read(const uint8_t *data, size_t size, uint32_t *rows, size_t rows_len)
{
    return of_xa(xa_read(data, size, rows, rows_len));
}

static outcome call_judge(const uint8_t *data, size_t size, uint32_t *rows, size_t rows_len)
{
    return of_xa(xa_judge(data, size, rows, rows_len));
}

static const struct {
    const char *name;
    call *run;
} calls[] = {
    {"walk", call_walk},
    {"walk_trusting", call_walk_trusting},
    {"xa_read", call_read},
    {"xa_judge", call_judge},
};

enum { CALLS = sizeof calls / sizeof calls[0], MOST = 201, LEAST = 41 };

/* About three seconds of measuring, within the limits above. */
static int repetitions(double nanoseconds)
{
    double wanted = 3e9 / (nanoseconds * CALLS);
    return wanted > MOST ? MOST : wanted < LEAST ? LEAST : (int)wanted;
}

static int once(const char *which, const uint8_t *data, size_t size)
{
    size_t rows_len;
    uint32_t *rows = most_rows(size, &rows_len);
    call *run = call_walk;
    for (int k = 0; k < CALLS; k++)
        if (strcmp(calls[k].name, which) == 0)
            run = calls[k].run;
    outcome a = run(data, size, rows, rows_len);
    printf("code %u rows %u rule %u frame %u\n", a.code, a.rows, a.rule, a.frame);
    return 0;
}

int main(int argc, char **argv)
{
    static double times[CALLS][MOST], ratios[MOST];
    if (argc < 2)
        stop("a data set is wanted", argv[0]);
    size_t size;
    const uint8_t *data = map_file(argv[1], &size);
    if (argc > 2)
        return once(strcmp(argv[2], "judge") == 0 ? "xa_judge" : "xa_read", data, size);

    size_t rows_len;
    uint32_t *all = most_rows(size, &rows_len);
    walk_answer first = walk(data, size, all, rows_len);
    if (first.code != 0)
        stop("the walker refuses it", argv[1]);
    rows_len = ROW_NUMBERS * (size_t)first.rows;
    uint32_t *rows = touched(rows_len * sizeof *rows, 0);

    for (int k = 0; k < CALLS; k++) {
        memset(rows, 0xA5, rows_len * sizeof *rows);
        outcome a = calls[k].run(data, size, rows, rows_len);
        int same = a.rows == first.rows && memcmp(rows, all, rows_len * sizeof *rows) == 0;
        printf("%s_code %u\n%s_rule %u\n%s_frame %u\n%s_same_rows %d\n", calls[k].name, a.code, calls[k].name, a.rule,
               calls[k].name, a.frame, calls[k].name, same);
    }

    double start = now();
    walk(data, size, rows, rows_len);
    int count = repetitions(now() - start);
    volatile uint32_t kept = 0;
    for (int n = 0; n < count; n++)
        for (int turn = 0; turn < CALLS; turn++) {
            int k = (n + turn) % CALLS;
            double from = now();
            kept += calls[k].run(data, size, rows, rows_len).rows;
            times[k][n] = now() - from;
        }
    printf("rows %u\nrepetitions %d\n", first.rows, count);

    /* A round's times are compared with the walker's of the same round, so that a machine that gets faster or slower
       meanwhile does not show; the ratio is the median over the rounds. */
    for (int k = CALLS - 1; k >= 0; k--) {
        for (int n = 0; n < count; n++)
            ratios[n] = times[k][n] / times[0][n];
        printf("%s_ratio %.4f\n", calls[k].name, median(ratios, count));
        if (k > 0)
            printf("%s %.0f\n", calls[k].name, median(times[k], count));
    }
    printf("%s %.0f\n", calls[0].name, median(times[0], count));
    return 0;
}
