/* Times xa_compare of one frame, against xa_show and a plain C comparison of what it drew.

       bench_compare FILE FRAME    medians over rounds of one call each, one "name number" a line

   Twice: our own picture at tolerance 0, against xa_show and memcmp; and a picture with every seventh cell 2 away at tolerance 1, against
   xa_show and a loop that counts and keeps the first. Both sides judge. Times are the thread's processor time in nanoseconds a call, so that
   other work on the machine does not fall into one call and not the other; all buffers are touched beforehand. */

#include "common.h"

enum { ROUNDS = 61, MOST_ROWS = 65536 };

typedef struct {
    uint32_t first, count;
} found;

/* What plain C says of the cells that are more than the tolerance away: the first and how many. */
static found off(const uint8_t *ours, const uint8_t *theirs, size_t cells, int tolerance)
{
    found f = {0, 0};
    for (size_t i = 0; i < cells; i++) {
        int by = ours[i] - theirs[i];
        if (by > tolerance || -by > tolerance) {
            if (f.count == 0)
                f.first = (uint32_t)i;
            f.count++;
        }
    }
    return f;
}

int main(int argc, char **argv)
{
    static double times[4][ROUNDS], equal[ROUNDS], counted[ROUNDS];
    if (argc != 3)
        stop("wanted: a data set, a frame number", argv[0]);
    size_t size, rows_len = XA_ROW_NUMBERS * (size_t)MOST_ROWS, room = (size_t)1 << 24;
    const uint8_t *data = map_file(argv[1], &size);
    uint64_t frame = strtoul(argv[2], NULL, 10);
    uint32_t *rows = touched(rows_len * sizeof *rows, 0);
    uint8_t *shown = touched(room, 0x5A);
    xa_answer drawn = xa_show(data, size, frame, rows, rows_len, shown, room);
    if (drawn.code != 0)
        stop("it is not drawn", argv[1]);
    /* The cells that were drawn are those that another call accepts. */
    size_t cells = 0;
    for (size_t side = 64; side <= 4096 && cells == 0; side *= 2)
        if (xa_compare(data, size, frame, shown, side * side, 0, rows, rows_len).answer.code == 0)
            cells = side * side;
    if (cells == 0)
        stop("not a picture of 64 x 64 to 4096 x 4096", argv[1]);
    uint8_t *same = touched(cells, 0), *other = touched(cells, 0);
    memcpy(same, shown, cells);
    memcpy(other, shown, cells);
    for (size_t i = 3; i < cells; i += 7)
        other[i] = other[i] < 128 ? other[i] + 2 : other[i] - 2;
    int differs = 0;
    found plain = {0, 0};
    xa_compared yes = {0}, no = {0};
    for (int n = 0; n < ROUNDS; n++) {
        double from = spent();
        xa_show(data, size, frame, rows, rows_len, shown, cells);
        differs += memcmp(shown, same, cells) != 0;
        times[0][n] = spent() - from;
        from = spent();
        yes = xa_compare(data, size, frame, same, cells, 0, rows, rows_len);
        times[1][n] = spent() - from;
        from = spent();
        xa_show(data, size, frame, rows, rows_len, shown, cells);
        plain = off(shown, other, cells, 1);
        times[2][n] = spent() - from;
        from = spent();
        no = xa_compare(data, size, frame, other, cells, 1, rows, rows_len);
        times[3][n] = spent() - from;
        equal[n] = times[1][n] / times[0][n];
        counted[n] = times[3][n] / times[2][n];
    }
    printf("cells %zu\nmasked %u\n", cells, drawn.masked);
    printf("agree %d\n", differs == 0 && yes.same == 1 && no.same == 0 && no.first == plain.first && no.count == plain.count);
    printf("equal_ratio %.4f\ncounted_ratio %.4f\n", median(equal, ROUNDS), median(counted, ROUNDS));
    printf("show_memcmp %.0f\nequal %.0f\n", median(times[0], ROUNDS), median(times[1], ROUNDS));
    printf("show_loop %.0f\ncounted %.0f\n", median(times[2], ROUNDS), median(times[3], ROUNDS));
    return 0;
}
