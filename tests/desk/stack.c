/* How much stack each call of the library takes: it is made on a painted stack, of which the untouched part is then counted.
 *
 *     stack FILE DATA FRAME    a DICOM file, its data set without the head, a frame; a line for each call: name, code, bytes
 */
#include <pthread.h>
#include <stdio.h>
#include <stdlib.h>
#include <string.h>
#include <sys/mman.h>
#include "luuxidgaan.h"

#define STACK (4u << 20)
#define PAINT 0xA5
#define ROWS (1u << 20)
#define CELLS (1u << 22)

static uint8_t *file, *data, *image, *target;
static size_t file_size, data_size;
static uint32_t *rows;
static uint16_t *values;
static uint64_t frame, sheet[XA_SHEET_NUMBERS];
static uint32_t code;

static void nothing(void) { code = 0; }
static void do_read(void) { code = xa_read(data, data_size, rows, ROWS).code; }
static void do_judge(void) { code = xa_judge(data, data_size, rows, ROWS).code; }
static void do_show(void) { code = xa_show(data, data_size, frame, rows, ROWS, image, CELLS).code; }
static void do_data_set(void) { code = xa_data_set(file, file_size).code; }
static void do_read_file(void) { code = xa_read_file(file, file_size, rows, ROWS).code; }
static void do_judge_file(void) { code = xa_judge_file(file, file_size, rows, ROWS).code; }
static void do_show_file(void) { code = xa_show_file(file, file_size, frame, rows, ROWS, image, CELLS).code; }
static void do_sheet(void) { code = xa_sheet(data, data_size, frame, frame, rows, ROWS, sheet, XA_SHEET_NUMBERS).code; }
static void do_compare(void) { code = xa_compare(data, data_size, frame, image, strtoull(getenv("CELLS"), 0, 10), 255, rows, ROWS).answer.code; }
static void do_canonical(void) { code = xa_canonical(data, data_size, rows, ROWS, target, data_size).code; }
static void do_linear(void) { code = xa_linear(data, data_size, frame, rows, ROWS, values, CELLS).code; }
static void do_write_slip(void) {
    xa_answer verdict = {0};
    verdict.rows = 57;
    code = xa_write_slip(verdict, 1, target, 17);
}
static void do_read_slip(void) { code = xa_read_slip(target, 17).code; }
static void do_count(void) { code = xa_count(data, data_size).code; }

static void *start(void *call) {
    ((void (*)(void))call)();
    return NULL;
}

/* The bytes of a stack that a call touches, with those that a thread takes anyway. */
static size_t touched(void (*call)(void)) {
    uint8_t *stack = mmap(NULL, STACK, PROT_READ | PROT_WRITE, MAP_PRIVATE | MAP_ANONYMOUS | MAP_STACK, -1, 0);
    memset(stack, PAINT, STACK);
    pthread_attr_t attributes;
    pthread_attr_init(&attributes);
    pthread_attr_setstack(&attributes, stack, STACK);
    pthread_t thread;
    if (pthread_create(&thread, &attributes, start, (void *)call)) exit(3);
    pthread_join(thread, NULL);
    size_t left = 0;
    while (left < STACK && stack[left] == PAINT) left++;
    munmap(stack, STACK);
    return STACK - left;
}

static uint8_t *content(const char *path, size_t *size) {
    FILE *from = fopen(path, "rb");
    if (!from) exit(2);
    fseek(from, 0, SEEK_END);
    *size = ftell(from);
    rewind(from);
    uint8_t *bytes = malloc(*size + 1);
    if (fread(bytes, 1, *size, from) != *size) exit(2);
    fclose(from);
    return bytes;
}

int main(int count, char **words) {
    if (count != 4) return 2;
    file = content(words[1], &file_size);
    data = content(words[2], &data_size);
    frame = strtoull(words[3], NULL, 10);
    rows = malloc(4 * ROWS);
    image = calloc(1, CELLS);
    values = calloc(2, CELLS);
    target = calloc(1, data_size + 17);
    struct { const char *name; void (*call)(void); } calls[] = {
        {"xa_read", do_read}, {"xa_judge", do_judge}, {"xa_show", do_show}, {"xa_data_set", do_data_set}, {"xa_read_file", do_read_file},
        {"xa_judge_file", do_judge_file}, {"xa_show_file", do_show_file}, {"xa_sheet", do_sheet}, {"xa_compare", do_compare},
        {"xa_canonical", do_canonical}, {"xa_linear", do_linear}, {"xa_write_slip", do_write_slip}, {"xa_read_slip", do_read_slip},
        {"xa_count", do_count},
    };
    size_t own = touched(nothing);
    for (size_t place = 0; place < sizeof calls / sizeof *calls; place++) {
        size_t bytes = touched(calls[place].call);
        printf("%s %u %zu\n", calls[place].name, code, bytes - own);
    }
    return 0;
}
