/* Reads, judges and draws X-ray angiographic (XA, XRF) data sets in Explicit VR Little Endian, in DICOM files or without a
 * file head. Also counts the grey levels of their frames, compares other pictures with them, maps them back to beam intensity,
 * writes them in a canonical form, and records verdicts on slips.
 *
 * Every call takes any bytes and any buffers. No call keeps a pointer, allocates, or depends on an earlier call. A host must
 * ensure this:
 *
 *   pointers  Each pointer has as many elements behind it as the size after it says. One whose size is 0 is never followed.
 *   buffers   No two buffers of one call overlap.
 *   bytes     The bytes do not change during a call; the proofs are about bytes that stay as they are. If another process writes
 *             to a file that is lent as a mapping, a call may crash or write past a buffer. Read the file into your own memory, or
 *             map only what nobody can write to.
 *   stack     A call takes at most, measured on x86-64:
 *
 *               xa_compare                             800,000 bytes for a masked frame
 *               xa_show, xa_show_file                  670,000 bytes for a masked frame
 *               xa_sheet                             1,070,000 bytes
 *               xa_judge, xa_judge_file, xa_linear      68,000 bytes
 *               all others                               2,000 bytes
 */
#ifndef LUUXIDGAAN_H
#define LUUXIDGAAN_H

#include <stddef.h>
#include <stdint.h>

#ifdef __cplusplus
extern "C" {
#endif

/* The version of these calls. It goes up by one when a host that was built for the last version must be rebuilt; adding calls
 * does not change it. */
#define XA_VERSION 1

/* The most bytes that a data set may have. */
#define XA_LARGEST 1073741824

/* The numbers in a row. A row takes at least 8 bytes of the data set, so a row buffer never needs more than
 * XA_ROW_NUMBERS x (size / 8) numbers; `xa_count` says how many rows a data set has. */
#define XA_ROW_NUMBERS 7

/* The number of rules. */
#define XA_RULES 39

/* The `rows` of a verdict that was read from a slip without a row count. No data set has that many. */
#define XA_ROWS_NOT_KNOWN 0xFFFFFFFF

/* The numbers of a sampling sheet. */
#define XA_SHEET_NUMBERS 260

/* The largest tolerance of `xa_compare`. */
#define XA_TOLERANCE 255

/* The codes, by name. */
enum {
    XA_DONE = 0,
    XA_CUT_SHORT = 1,
    XA_TAG_ORDER = 2,
    XA_UNKNOWN_VR = 3,
    XA_ODD_LENGTH = 4,
    XA_OUT_OF_PLACE = 5,
    XA_TOO_DEEP = 6,
    XA_TOO_LARGE = 7,
    XA_NO_ROOM_FOR_ROWS = 8,
    XA_RULE_BROKEN = 9,
    XA_NO_SUCH_FRAME = 10,
    XA_NO_ROOM = 11,
    XA_NOT_A_SLIP = 12,
    XA_SLIP_VERSION = 13,
    XA_IMPOSSIBLE_VERDICT = 14,
    XA_NOT_A_FILE = 15,
    XA_BAD_HEAD = 16,
    XA_OTHER_TRANSFER_SYNTAX = 17,
    XA_OTHER_SOP_CLASS = 18,
    XA_FRAMES_REVERSED = 19,
    XA_NO_TO_LINEAR = 20,
    XA_NO_ROOM_FOR_TARGET = 21,
    XA_CELL_COUNT = 22,
    XA_TOLERANCE_TOO_LARGE = 23
};

/* What a call answers. Fields that the code does not name are 0.
 *
 *   code  meaning                                                              fields named
 *      0  done                                                                 rows; by xa_show and xa_show_file
 *                                                                              masked, by xa_judge and
 *                                                                              xa_judge_file searches
 *      1  cut short: too few bytes left for a header, a header or a value      offset
 *         that goes past the end of what holds it, or an undefined length
 *         still open at that end
 *      2  a tag that is not above the one before it                            offset
 *      3  a VR that is not listed                                              offset
 *      4  an odd length                                                        offset
 *      5  an item or a delimiter where none is due, an element among items,    offset
 *         a long header whose two reserved bytes are not zero, or an
 *         undefined length where only a defined one may be
 *      6  a sequence nested too deep: eight levels are read                    offset
 *      7  a data set of more than XA_LARGEST bytes                             none
 *      8  reads well, but the row buffer holds fewer than XA_ROW_NUMBERS       none
 *         numbers for each row
 *      9  a rule is broken: the first such rule, at the lowest frame that      rows, rule, frame
 *         breaks it
 *     10  no such frame: the number is not in 1 to Number of Frames            none
 *     11  the image buffer holds fewer than Rows x Columns bytes, the values   none
 *         buffer fewer than Rows x Columns numbers, or the sheet's buffer
 *         fewer than XA_SHEET_NUMBERS
 *     15  not a DICOM file: no "DICM" at byte 128                              none
 *     16  a bad file head: its group length is not first, or ends past the     none
 *         file; its elements break a reading check, or one at depth 0 is of
 *         another group; or a UID is missing, empty, not UI or not single
 *     17  another transfer syntax than Explicit VR Little Endian               none
 *     18  the head and the data set name different SOP classes, or the data    none
 *         set names none
 *     19  the first frame is above the last                                    none
 *     20  the frame has no TO_LINEAR item                                      none
 *     22  the number of cells handed in is not Rows x Columns                  none
 *     23  the tolerance is over XA_TOLERANCE                                   none
 *
 * `offset` counts bytes from 0: where the refused header starts, or the end at which an undefined length is still open. `rule` is
 * 1 to XA_RULES; `frame` counts from 1, and is 0 for a rule that is not asked per frame.
 *
 * Order of the tests: the size (7); 1 to 6, header by header; the row buffer (8); the rules (9); in xa_sheet the order of the
 * frames (19); the frame (10); in xa_linear the item (20); the image, values or sheet's buffer (11). In xa_compare the number of
 * cells (22) and the tolerance (23) follow the frame. The calls for files test 15, 16 and 17 before all others, and 18 between 8
 * and 9.
 *
 * `searches` says how far judging looks: how many rows are looked at when each element of docs/SEARCHES.md is sought once for
 * each rule, whatever the rule's conditions. It is at most 40 x (Number of Frames + 1) x `rows`.
 */
typedef struct {
    uint32_t code;
    uint32_t offset;
    uint32_t rows;
    uint32_t rule;
    uint32_t frame;
    uint32_t masked;
    uint64_t searches;
} xa_answer;

/* The version of the library; compare it with XA_VERSION. */
uint32_t xa_version(void);

/* How many rows the data set has, so that a host can lend the room that every other call needs: XA_ROW_NUMBERS x `rows` numbers.
 * Answers code 0 and `rows`, or 1 to 7 as `xa_read` does. Writes nothing, and takes about half as long as `xa_read`.
 */
xa_answer xa_count(const uint8_t *data, size_t size);

/* Reads the `size` bytes at `data` into rows, one for each element and item, in the order of the bytes.
 *
 * `rows` has room for `rows_len` numbers. A row is XA_ROW_NUMBERS of them:
 *
 *   0  the tag, group x 65,536 + element
 *   1  the VR, first letter x 256 + second; 0 for an item
 *   2  the depth, 0 at the root
 *   3  the offset of the value
 *   4  the length of the value; for an undefined length, up to its delimiter
 *   5  how many rows are below it; they are the rows that follow it
 *   6  its parent: the number, counted from 1, of the row of the item or sequence that directly holds it; 0 at the root.
 *      Following the parents meets every row that has this one below it, and reaches 0 within 17 steps.
 *
 * With code 0 the first XA_ROW_NUMBERS x `rows` numbers are written, and nothing beyond them; with any other code nothing is
 * written.
 */
xa_answer xa_read(const uint8_t *data, size_t size, uint32_t *rows, size_t rows_len);

/* Reads the data set afresh, as `xa_read` does, and judges it by the XA_RULES rules: code 0 if every rule holds, code 9 if one is
 * broken. With codes 0 and 9 the rows are written, and nothing beyond them; with any other code nothing is written.
 */
xa_answer xa_judge(const uint8_t *data, size_t size, uint32_t *rows, size_t rows_len);

/* Judges the data set afresh, as `xa_judge` does, and draws its frame `frame`, counted from 1: masked and moved as its mask items
 * say, and windowed. `masked` is 1 for a masked picture and 0 for a native one.
 *
 * `image` has room for `image_len` bytes. With code 0 the first Rows x Columns of them are written, row by row, each a grey level
 * from 0 (black) to 255 (white), and nothing beyond them; with any other code no byte of `image` is written. The rows are written
 * with codes 0, 9, 10 and 11. Every frame of a data set that `xa_judge` accepts is drawn if there is room.
 */
xa_answer xa_show(const uint8_t *data, size_t size, uint64_t frame, uint32_t *rows, size_t rows_len, uint8_t *image,
                  size_t image_len);

/* Where the data set of a DICOM file starts: code 0 and `start`, or code 15, 16 or 17 and start 0. The data set is all of the
 * file from there on.
 */
typedef struct {
    uint32_t code;
    size_t start;
} xa_part;

xa_part xa_data_set(const uint8_t *file, size_t size);

/* The calls for DICOM files. `file` is a whole file: 128 bytes of anything, "DICM", a head of group 0002, then the data set. Each
 * call does with the data set, in place, what the call of the same name does with a bare one, and answers the same; offsets count
 * from the start of the data set. Codes 15 to 18 are added: with 15 to 17 no buffer is written; with 18 only the rows are.
 * XA_LARGEST limits the data set and not the file, and the head needs no room. No slip records 15 to 18: writing one answers 14.
 */
xa_answer xa_read_file(const uint8_t *file, size_t size, uint32_t *rows, size_t rows_len);

xa_answer xa_judge_file(const uint8_t *file, size_t size, uint32_t *rows, size_t rows_len);

xa_answer xa_show_file(const uint8_t *file, size_t size, uint64_t frame, uint32_t *rows, size_t rows_len, uint8_t *image,
                       size_t image_len);

/* Judges the data set afresh, as `xa_judge` does, and counts the grey levels of its frames `first` to `last`, counted from 1, as
 * `xa_show` draws them. The sheet has XA_SHEET_NUMBERS numbers:
 *
 *   0..255  how often each level was drawn; together (last - first + 1) x Rows x Columns
 *      256  how many of the frames are native
 *      257  the lowest level that was drawn
 *      258  the highest
 *      259  the sum of all levels
 *
 * `sheet` has room for `sheet_len` numbers. If it has room for XA_SHEET_NUMBERS, that many are written with every code: with code 0
 * the sheet, with any other code zeros; nothing is written beyond them. If it has less room, nothing is written, and the code is 11
 * where it would have been 0. The rows are written with codes 0, 9, 19, 10 and 11. No image buffer is needed: one line is drawn at a
 * time. Every sheet of frames of a data set that `xa_judge` accepts is done if there is room. The time is proportional to the cells,
 * the rows, the pairs of frame ranges, and the frames times 16 plus the logarithm of the rows.
 */
xa_answer xa_sheet(const uint8_t *data, size_t size, uint64_t first, uint64_t last, uint32_t *rows, size_t rows_len,
                   uint64_t *sheet, size_t sheet_len);

/* What `xa_compare` answers. With code 0, `same` is 1 if every cell is within the tolerance. Otherwise it is 0, `first` is the first
 * cell that is not, counted from 0, row by row, and `count` is how many are not. With any other code all three are 0. `answer.masked`
 * is 0.
 */
typedef struct {
    xa_answer answer;
    uint32_t same;
    uint32_t first;
    uint32_t count;
} xa_compared;

/* Judges the data set afresh, as `xa_judge` does, and compares another workstation's picture of its frame `frame`, counted from 1,
 * with ours: the `cells_len` grey levels at `cells`, row by row, each of which may be up to `tolerance` away from what `xa_show`
 * draws.
 *
 * What `xa_show` draws passes at every tolerance, and what passes at one passes at every larger one. No image buffer is needed: one
 * line is drawn at a time. The rows are written with codes 0, 9, 10, 22 and 23. Every frame of a data set that `xa_judge` accepts is
 * compared if there is room for the rows.
 */
xa_compared xa_compare(const uint8_t *data, size_t size, uint64_t frame, const uint8_t *cells, size_t cells_len,
                       uint64_t tolerance, uint32_t *rows, size_t rows_len);

/* What `xa_canonical` answers. Fields that the code does not name are 0.
 *
 *   code  meaning                                                              fields named
 *      0  written                                                              rows, length
 *   1..8  as `xa_read` answers them, in its order                              with 1 to 6: offset
 *     21  the target is shorter than the canonical form; tested last           length
 *
 * `length` is the length of the canonical form, which is never more than `size`.
 */
typedef struct {
    uint32_t code;
    uint32_t offset;
    uint32_t rows;
    uint32_t length;
} xa_rewritten;

/* Reads the data set afresh, as `xa_read` does, and writes its canonical form: the same elements and items in the same order, with
 * defined lengths throughout and no delimiters. Two data sets have the same canonical form exactly when they have the same tags,
 * VRs, nesting and values; they are then judged and drawn alike.
 *
 * `target` has room for `target_len` bytes. With code 0 the first `length` of them are written, and nothing beyond them; with any
 * other code no byte of `target` is written. The rows of the data set as it was handed in are written with codes 0 and 21.
 */
xa_rewritten xa_canonical(const uint8_t *data, size_t size, uint32_t *rows, size_t rows_len, uint8_t *target,
                          size_t target_len);

/* Judges the data set afresh, as `xa_judge` does, and maps frame `frame`, counted from 1, back to beam intensity: each stored
 * sample, neither masked nor windowed, becomes its entry in the LUT of the frame's TO_LINEAR item (Pixel Intensity
 * Relationship LUT Sequence, in the frame's own item of the functional groups or else in the shared one). Samples below the
 * first mapped one take the first entry, samples above the last one the last entry.
 *
 * `values` has room for `values_len` numbers. With code 0 the first Rows x Columns of them are written, row by row, and nothing
 * beyond them; with any other code no number of `values` is written. The rows are written with codes 0, 9, 10, 20 and 11. Every
 * frame of a data set that `xa_judge` accepts is mapped if it has a TO_LINEAR item and there is room.
 */
xa_answer xa_linear(const uint8_t *data, size_t size, uint64_t frame, uint32_t *rows, size_t rows_len, uint16_t *values,
                    size_t values_len);

/* The square root derivation, 14 bits to 8: the largest p with p x p <= 4v, where v is the lowest 14 bits of `cell`. No cell
 * becomes 1.
 */
uint8_t xa_root_level(uint64_t cell);

/* The entry of a derived image's LUT for level p: p x p / 4, rounded up. `xa_root_level` of it is p again, except for level 1; and
 * a cell minus the entry of its level is 0 to 127.
 */
uint16_t xa_root_entry(uint8_t level);

/* A slip is 17 bytes that record a verdict: what `xa_judge` answers, with the number of rows. Slips of version 1 had 13 bytes and
 * no number of rows; they are still read, but no longer written. */

/* What `xa_read_slip` answers.
 *
 *   code  meaning
 *      0  read: `verdict` holds the verdict's code, offset, rows, rule and frame; its other fields are 0. `rows_known` is 1;
 *         for a slip of version 1 it is 0, and `verdict.rows` is XA_ROWS_NOT_KNOWN
 *     12  not a slip: fewer than 5 bytes or a wrong mark; tested after 13, a length that is not its version's
 *     13  a version that is neither 1 nor 2
 *     14  fields that no verdict has
 *
 * With codes 12 to 14 `rows_known` and every field of `verdict` are 0.
 */
typedef struct {
    uint32_t code;
    uint32_t rows_known;
    xa_answer verdict;
} xa_slip;

/* Writes the slip of a verdict over the first 17 of the `slip_len` bytes at `slip`, and nothing beyond them.
 *
 * Any `rows_known` but 0 says that `verdict.rows` is the verdict's number of rows, as in every answer of `xa_judge`.
 *
 * Answers 0 if it is written; 14 if no verdict has these fields, or the number of rows is not known; then 11 if there is room for
 * fewer than 17 bytes. With 14 and 11 nothing is written. The verdict's code, offset, rows, rule and frame are recorded; `masked`
 * and `searches` are ignored.
 */
uint32_t xa_write_slip(xa_answer verdict, uint32_t rows_known, uint8_t *slip, size_t slip_len);

/* Reads the slip in the `slip_len` bytes at `slip`. */
xa_slip xa_read_slip(const uint8_t *slip, size_t slip_len);

#ifdef __cplusplus
}
#endif

#endif
