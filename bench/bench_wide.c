/* Times the library on one data set that is made to be slow: reading, judging, and drawing the last frame.

       bench_wide FILE    the least of a few calls each, one "name number" a line

   Times are in nanoseconds a call; the bytes and the buffers are in memory and touched beforehand. */

#include "common.h"

enum { MOST = 7 };
#define ENOUGH 4e9 /* nanoseconds of one call, all its repetitions together */

static const uint8_t *data;
static size_t size, rows_len;
static uint32_t *rows;
static uint64_t last;
static uint8_t image[1];

static xa_answer call_read(void)
{
    return xa_read(data, size, rows, rows_len);
}

static xa_answer call_judge(void)
{
    return xa_judge(data, size, rows, rows_len);
}

static xa_answer call_show(void)
{
    return xa_show(data, size, last, rows, rows_len, image, sizeof image);
}

static const struct {
    const char *name;
    xa_answer (*run)(void);
} calls[] = {{"xa_read", call_read}, {"xa_judge", call_judge}, {"xa_show", call_show}};

/* Number of Frames, from the rows. */
static uint64_t frames(uint32_t count)
{
    for (uint32_t at = 0; at < count; at += 1 + rows[ROW_NUMBERS * at + 5])
        if (rows[ROW_NUMBERS * at] == 0x00280008)
            return strtoull((const char *)data + rows[ROW_NUMBERS * at + 3], NULL, 10);
    return 0;
}

int main(int argc, char **argv)
{
    if (argc != 2)
        stop("a data set is wanted", argv[0]);
    data = map_file(argv[1], &size);
    rows_len = size / 8 * ROW_NUMBERS;
    rows = touched(rows_len * sizeof *rows, 0);
    uint32_t count = xa_read(data, size, rows, rows_len).rows;
    last = frames(count);
    printf("rows %u\nframes %llu\n", count, (unsigned long long)last);
    for (size_t k = 0; k < sizeof calls / sizeof calls[0]; k++) {
        double least = 0, spent = 0;
        xa_answer a = {0};
        for (int n = 0; n < MOST && (n < 2 || spent < ENOUGH); n++) {
            double from = now();
            a = calls[k].run();
            double taken = now() - from;
            least = n == 0 || taken < least ? taken : least;
            spent += taken;
        }
        printf("%s %.0f\n%s_code %u\n", calls[k].name, least, calls[k].name, a.code);
    }
    return 0;
}
