/* Times the canonical form of one bare data set, against reading it and copying its bytes.

       bench_canonical FILE OUT     medians over rounds of one call each, one "name number" a line; OUT gets the canonical form

   Times are in nanoseconds a call; the bytes, the row buffer and the target are in memory and touched beforehand. */

#include "common.h"

enum { ROUNDS = 41 };

int main(int argc, char **argv)
{
    static double reading[ROUNDS], copying[ROUNDS], writing[ROUNDS], ratios[ROUNDS];
    if (argc < 3)
        stop("a data set and a file to write are wanted", argv[0]);
    size_t size;
    const uint8_t *data = map_file(argv[1], &size);
    size_t rows_len;
    uint32_t *all = most_rows(size, &rows_len);
    xa_answer first = xa_read(data, size, all, rows_len);
    if (first.code != 0)
        stop("it does not read well", argv[1]);
    free(all);
    rows_len = XA_ROW_NUMBERS * (size_t)first.rows;
    uint32_t *rows = touched(rows_len * sizeof *rows, 0);
    uint8_t *target = touched(size, 0);
    xa_rewritten written = {0};
    for (int n = 0; n < ROUNDS; n++) {
        double from = now();
        xa_read(data, size, rows, rows_len);
        double read = now();
        memcpy(target, data, size);
        double copied = now();
        written = xa_canonical(data, size, rows, rows_len, target, size);
        double done = now();
        reading[n] = read - from;
        copying[n] = copied - read;
        writing[n] = done - copied;
        ratios[n] = writing[n] / (reading[n] + copying[n]);
    }
    printf("rows %u\ncode %u\nsize %zu\nlength %u\n", first.rows, written.code, size, written.length);
    printf("read %.0f\ncopy %.0f\n", median(reading, ROUNDS), median(copying, ROUNDS));
    printf("xa_canonical %.0f\nratio %.4f\n", median(writing, ROUNDS), median(ratios, ROUNDS));
    FILE *out = fopen(argv[2], "wb");
    if (out == NULL || fwrite(target, 1, written.length, out) != written.length || fclose(out) != 0)
        stop("cannot be written", argv[2]);
    return 0;
}
