/* Times the drawing of one masked frame (AVG_SUB) of 16-bit samples.

       bench_show FILE FRAME IMAGE    medians of interleaved repetitions, one "name number" a line;
                                      IMAGE receives the plain C picture

   Times are in nanoseconds a call; all buffers are touched beforehand. The plain C drawing starts from numbers already
   taken out of the data set, so the library's time for judging alone is measured too, to be taken off. */

#include "plan.h"

enum { REPETITIONS = 61 };

int main(int argc, char **argv)
{
    static double times[3][REPETITIONS], ratios[REPETITIONS];
    static uint8_t table[131072];
    if (argc != 4)
        stop("wanted: a data set, a frame number, a file for the picture", argv[0]);
    size_t size;
    data = map_file(argv[1], &size);
    uint32_t frame = (uint32_t)strtoul(argv[2], NULL, 10);
    size_t rows_len = ROW_NUMBERS * 65536;
    rows = touched(rows_len * sizeof *rows, 0);
    walk_answer read = walk(data, size, rows, rows_len);
    if (read.code != 0)
        stop("the walker refuses it", argv[1]);
    row_count = read.rows;
    picture p = plan(frame);
    size_t cells = p.height * p.width;
    uint8_t *image = touched(cells, 0xA5);
    uint32_t *lines = touched(3 * p.width * sizeof *lines, 0);
    draw(&p, image, table, lines);
    FILE *out = fopen(argv[3], "wb");
    if (out == NULL || fwrite(image, 1, cells, out) != cells || fclose(out) != 0)
        stop("cannot be written", argv[3]);

    uint32_t *lent = touched(rows_len * sizeof *lent, 0);
    uint8_t *shown = touched(cells, 0x5A);
    xa_answer answer = xa_show(data, size, frame, lent, rows_len, shown, cells);
    printf("xa_show_code %u\nxa_show_masked %u\nxa_show_same %d\n", answer.code, answer.masked,
           answer.code == 0 && memcmp(shown, image, cells) == 0);
    for (int n = 0; n < REPETITIONS; n++) {
        double from = now();
        draw(&p, image, table, lines);
        times[0][n] = now() - from;
        from = now();
        answer = xa_show(data, size, frame, lent, rows_len, shown, cells);
        times[1][n] = now() - from;
        from = now();
        xa_judge(data, size, rows, rows_len);
        times[2][n] = now() - from;
    }
    /* As for reading: a round's times are compared with each other. */
    for (int n = 0; n < REPETITIONS; n++)
        ratios[n] = (times[1][n] - times[2][n]) / times[0][n];
    printf("ratio %.4f\n", median(ratios, REPETITIONS));
    printf("cells %zu\nstored %u\nmasks %u\nvertical %.2f\nhorizontal %.2f\n", cells, p.stored, p.masks,
           p.vertical / 4.0, p.horizontal / 4.0);
    printf("draw %.0f\n", median(times[0], REPETITIONS));
    printf("xa_show %.0f\n", median(times[1], REPETITIONS));
    printf("xa_judge %.0f\n", median(times[2], REPETITIONS));
    return 0;
}
