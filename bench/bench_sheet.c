/* Times the sampling sheet of all frames of a data set.

       bench_sheet FILE    medians of interleaved repetitions, one "name number" a line

   Times are in nanoseconds a call; all buffers are touched beforehand. Where every frame is masked (AVG_SUB) the plain C reads the
   rows, takes what each frame is drawn from out of them, draws it and counts its levels in four tables, so that a level that comes
   again doesn't wait for the count before it. The library's time for judging alone is measured too. */

#include "plan.h"

static uint64_t counts[4][256];

/* The counts of an image, in four tables. */
static void count(const uint8_t *image, size_t cells)
{
    size_t i = 0;
    for (; i + 4 <= cells; i += 4) {
        counts[0][image[i]]++;
        counts[1][image[i + 1]]++;
        counts[2][image[i + 2]]++;
        counts[3][image[i + 3]]++;
    }
    for (; i < cells; i++)
        counts[0][image[i]]++;
}

int main(int argc, char **argv)
{
    enum { MOST = 41 };
    static double times[3][MOST], ratios[MOST];
    static uint8_t table[131072];
    static uint64_t sheet[260];
    if (argc != 2)
        stop("wanted: a data set", argv[0]);
    size_t size;
    data = map_file(argv[1], &size);
    size_t rows_len = ROW_NUMBERS * (size / 8);
    if (rows_len > ROW_NUMBERS * (size_t)4000000)
        rows_len = ROW_NUMBERS * (size_t)4000000;
    rows = touched(rows_len * sizeof *rows, 0);
    walk_answer read = walk(data, size, rows, rows_len);
    if (read.code != 0)
        stop("the walker refuses it", argv[1]);
    row_count = read.rows;
    uint32_t groups = in_root(0x52009230), frames = 0;
    for (uint32_t at = groups + 1; at < groups + 1 + rows[ROW_NUMBERS * groups + 5]; at += 1 + rows[ROW_NUMBERS * at + 5])
        frames++;
    size_t cells = (size_t)us(in_root(0x00280010), 0) * us(in_root(0x00280011), 0);
    int masked = among(0, row_count, 0x00286100) != NONE && frames < 2000;
    uint8_t *image = touched(cells, 0xA5);
    uint32_t *lines = touched(3 * us(in_root(0x00280011), 0) * sizeof *lines, 0);
    uint32_t *lent = touched(rows_len * sizeof *lent, 0);
    int repetitions = masked ? 5 : MOST;
    for (int n = 0; n < repetitions; n++) {
        double from = now();
        xa_answer answer = xa_sheet(data, size, 1, frames, lent, rows_len, sheet, 260);
        times[0][n] = now() - from;
        from = now();
        xa_judge(data, size, lent, rows_len);
        times[1][n] = now() - from;
        if (n == 0)
            printf("xa_sheet_code %u\nnatives %.0f\n", answer.code, (double)sheet[256]);
        if (!masked)
            continue;
        memset(counts, 0, sizeof counts);
        from = now();
        walk(data, size, rows, rows_len);
        for (uint32_t frame = 1; frame <= frames; frame++) {
            picture p = plan(frame);
            draw(&p, image, table, lines);
            count(image, cells);
        }
        times[2][n] = now() - from;
        if (n == 0) {
            int same = 1;
            for (int y = 0; y < 256; y++)
                same = same && sheet[y] == counts[0][y] + counts[1][y] + counts[2][y] + counts[3][y];
            printf("same %d\n", same);
        }
    }
    for (int n = 0; n < repetitions; n++)
        ratios[n] = masked ? times[0][n] / times[2][n] : times[0][n] / times[1][n];
    printf("ratio %.4f\nframes %u\ncells %zu\n", median(ratios, repetitions), frames, cells);
    printf("xa_sheet %.0f\nxa_judge %.0f\n", median(times[0], repetitions), median(times[1], repetitions));
    if (masked)
        printf("draw_and_count %.0f\n", median(times[2], repetitions));
    return 0;
}
