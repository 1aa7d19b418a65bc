/* Times the searches that the sum of xa_judge counts, made one after the other in plain C, against that sum and against judging.

       bench_searches FILE    medians over rounds, one "name number" a line

   The plain C makes the searches that docs/SEARCHES.md lists, over the rows that xa_read made, and counts each row that it looks at. Where the
   shared item makes that too many, only the first frames are searched: as many as come to at most MOST_LOOKED rows, but at least one.
   The count for all frames is then worked out: what each search comes to in the shared item, once, times the frames that make it. If the
   count is not the sum, or what was looked at is not what was worked out for those frames, the program says so and ends with status 1.

   xa_show of frame 0, which there never is, judges, adds nothing up and draws nothing: so it shows what judging takes without the sum. Times are
   the thread's processor time in nanoseconds a call; all buffers are touched beforehand. */

#include "common.h"

enum { ROUNDS = 41, LEAST = 3 };
#define NONE UINT32_MAX
#define ENOUGH 1e9 /* nanoseconds of all rounds together, once there are LEAST */
#define MOST_LOOKED 200000000

static const uint8_t *data;
static size_t size, rows_len;
static uint32_t *rows;

/* ---- One search */

static inline uint32_t next(uint32_t at)
{
    return at + 1 + rows[XA_ROW_NUMBERS * (size_t)at + 5];
}

/* Keeps the compiler from making one search of several equal ones. */
static inline void anew(void)
{
    __asm__ volatile("" : : : "memory");
}

/* Looks for the tag among the elements from `from` up to `to`; adds the rows looked at. */
static uint32_t look(uint32_t from, uint32_t to, uint32_t tag, uint64_t *looked)
{
    uint64_t count = 0;
    uint32_t found = NONE;
    anew();
    for (uint32_t at = from; at < to; at = next(at)) {
        uint32_t here = rows[XA_ROW_NUMBERS * (size_t)at];
        count++;
        if (here >= tag) {
            found = here == tag ? at : NONE;
            break;
        }
    }
    *looked += count;
    return found;
}

static uint32_t look_in(uint32_t item, uint32_t tag, uint64_t *looked)
{
    return look(item + 1, next(item), tag, looked);
}

/* Rule 27: an item's elements, each of which is looked at. */
static uint64_t elements(uint32_t item)
{
    uint64_t count = 0;
    anew();
    for (uint32_t at = item + 1; at < next(item); at = next(at))
        count++;
    return count;
}

/* ---- The tables of docs/SEARCHES.md; a list of tags ends with 0 */

static const uint32_t root_tags[] = {
    0x00080016, 0x00080060, 0x00080008, 0x00189410, 0x00189457, 0x0008002A, 0x00280002, 0x00280004, 0x00280010, 0x00280011, 0x00280100,
    0x00280101, 0x00280102, 0x00280103, 0x00280008, 0x00189004, 0x00280301, 0x00282110, 0x00282112, 0x00282114, 0x00089410, 0x20500020,
    0x00180060, 0x0018115A, 0x00181155, 0x00189332, 0x00189328, 0x00189330, 0x00181508, 0x52009229, 0x52009230, 0x00286100, 0x7FE00010, 0};
static const uint32_t mask_tags[] = {0x00286101, 0x00286102, 0x00286110, 0x00286112, 0x00286120, 0x00286114, 0x00289416, 0};

enum { GROUPS = 7 };
static const struct {
    uint32_t tag, both, reads[4];
} groups[GROUPS] = {
    {0x00209111, 1, {0}},                                     /* 28, sought in both items */
    {0x00189412, 0, {0}},                                     /* 29 */
    {0x00289132, 0, {0x00281050, 0x00281051, 0x00281056, 0}}, /* 30 */
    {0x00289415, 0, {0}},                                     /* 36 */
    {0x00289415, 0, {0x00289416, 0x00286114, 0}},             /* 37 */
    {0x00289443, 0, {0x00281040, 0}},                         /* 39 */
    {0x00289422, 0, {0x00289474, 0x00283002, 0x00283006, 0}}, /* 39 */
};

/* ---- Sums of searches */

static uint64_t look_all(uint32_t from, uint32_t to, const uint32_t *tags)
{
    uint64_t looked = 0;
    for (; *tags != 0; tags++)
        look(from, to, *tags, &looked);
    return looked;
}

/* All the tags in each item of the sequence, if there is one. */
static uint64_t look_each(uint32_t sequence, const uint32_t *tags)
{
    uint64_t looked = 0;
    if (sequence != NONE)
        for (uint32_t item = sequence + 1; item < next(sequence); item = next(item))
            looked += look_all(item + 1, next(item), tags);
    return looked;
}

/* Where things are: the number of rows, the sequence of mask items, the shared item, and the sequence of frames' items. */
static uint32_t count, masks, shared, frames;

static void find_places(void)
{
    uint64_t ignored = 0;
    masks = look(0, count, 0x00286100, &ignored);
    shared = look(0, count, 0x52009229, &ignored) + 1;
    frames = look(0, count, 0x52009230, &ignored);
}

/* All that a frame's searches look at. */
static uint64_t frame_looked(uint32_t item)
{
    uint64_t looked = elements(item) + elements(shared);
    for (int g = 0; g < GROUPS; g++) {
        uint32_t group = look_in(item, groups[g].tag, &looked);
        uint32_t other = group == NONE || groups[g].both ? look_in(shared, groups[g].tag, &looked) : NONE;
        looked += look_each(group == NONE ? other : group, groups[g].reads);
    }
    return looked;
}

/* The same with what the shared item comes to worked out once. */
static uint64_t shared_elements, shared_looked[GROUPS], shared_read[GROUPS];

static void work_out_shared(void)
{
    shared_elements = elements(shared);
    for (int g = 0; g < GROUPS; g++)
        shared_read[g] = look_each(look_in(shared, groups[g].tag, &shared_looked[g]), groups[g].reads);
}

static uint64_t frame_worked_out(uint32_t item)
{
    uint64_t looked = elements(item) + shared_elements;
    for (int g = 0; g < GROUPS; g++) {
        uint32_t group = look_in(item, groups[g].tag, &looked);
        looked += group == NONE || groups[g].both ? shared_looked[g] : 0;
        looked += group == NONE ? shared_read[g] : look_each(group, groups[g].reads);
    }
    return looked;
}

/* The searches in the root and in the mask items, and those of the first frames. */
static uint64_t some_looked(uint64_t searched)
{
    uint64_t looked = look_all(0, count, root_tags) + look_each(masks, mask_tags);
    uint32_t item = frames + 1;
    for (uint64_t f = 0; f < searched; f++, item = next(item))
        looked += frame_looked(item);
    return looked;
}

/* The count for all frames, how many there are, how many are searched, and the count for those. */
typedef struct {
    uint64_t all, frames, searched, some;
} worked_out;

static worked_out work_out(void)
{
    uint64_t looked = look_all(0, count, root_tags) + look_each(masks, mask_tags);
    worked_out w = {looked, 0, 0, looked};
    work_out_shared();
    for (uint32_t item = frames + 1; item < next(frames); item = next(item)) {
        w.all += frame_worked_out(item);
        w.frames++;
        if (w.all <= MOST_LOOKED || w.frames == 1) {
            w.searched = w.frames;
            w.some = w.all;
        }
    }
    return w;
}

/* ---- Rounds */

enum { READ, SHOW, JUDGE, PLAIN, PARTS };

/* Makes the call, or the searches in C; whether the answer is that of the first time. */
static int run(int part, const worked_out *w)
{
    uint8_t image[1];
    switch (part) {
    case READ:
        return xa_read(data, size, rows, rows_len).code == XA_DONE;
    case SHOW:
        return xa_show(data, size, 0, rows, rows_len, image, sizeof image).code == XA_NO_SUCH_FRAME;
    case JUDGE:
        return xa_judge(data, size, rows, rows_len).searches == w->all;
    default:
        return some_looked(w->searched) == w->some;
    }
}

int main(int argc, char **argv)
{
    static double times[PARTS][ROUNDS], less[2][ROUNDS];
    if (argc != 2)
        stop("a data set is wanted", argv[0]);
    data = map_file(argv[1], &size);
    count = xa_count(data, size).rows;
    rows_len = XA_ROW_NUMBERS * (size_t)count;
    rows = touched(rows_len * sizeof *rows, 0);
    xa_answer judged = xa_judge(data, size, rows, rows_len);
    if (judged.code != XA_DONE)
        stop("it is not accepted", argv[1]);
    find_places();
    worked_out w = work_out();
    if (w.all != judged.searches) {
        fprintf(stderr, "%s: the plain searches look at %llu rows, and the sum is %llu\n", argv[1], (unsigned long long)w.all,
                (unsigned long long)judged.searches);
        return 1;
    }
    int n = 0, same = 1;
    for (double all = 0; n < ROUNDS && (n < LEAST || all < ENOUGH); n++) {
        for (int turn = 0; turn < PARTS; turn++) {
            int part = (n + turn) % PARTS;
            double from = spent();
            same &= run(part, &w);
            all += times[part][n] = spent() - from;
        }
        less[0][n] = times[SHOW][n] - times[READ][n];
        less[1][n] = times[JUDGE][n] - times[READ][n];
    }
    if (!same)
        stop("a round's answer or count is another than before", argv[1]);
    printf("rows %u\nframes %llu\nsearched %llu\nsum %llu\nlooked %llu\nrounds %d\n", count, (unsigned long long)w.frames,
           (unsigned long long)w.searched, (unsigned long long)w.all, (unsigned long long)w.some, n);
    printf("judging %.0f\njudging_and_sum %.0f\n", median(less[0], n), median(less[1], n));
    printf("xa_read %.0f\nplain %.0f\n", median(times[READ], n), median(times[PLAIN], n));
    return 0;
}
