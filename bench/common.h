/* What the benchmark programs share: the library's calls, a file as bytes, times and medians. */
#ifndef COMMON_H
#define COMMON_H

#include <fcntl.h>
#include <stddef.h>
#include <stdint.h>
#include <stdio.h>
#include <stdlib.h>
#include <string.h>
#include <sys/mman.h>
#include <sys/stat.h>
#include <time.h>
#include <unistd.h>

#include "../include/luuxidgaan.h"
#include "walker.h"

static inline void stop(const char *what, const char *name)
{
    fprintf(stderr, "%s: %s\n", name, what);
    exit(1);
}

/* The file's bytes, all in memory before the clock runs. */
static inline const uint8_t *map_file(const char *name, size_t *size)
{
    struct stat about;
    int file = open(name, O_RDONLY);
    if (file < 0 || fstat(file, &about) != 0 || about.st_size == 0)
        stop("cannot be read", name);
    *size = (size_t)about.st_size;
    void *data = mmap(NULL, *size, PROT_READ, MAP_PRIVATE | MAP_POPULATE, file, 0);
    if (data == MAP_FAILED)
        stop("cannot be mapped", name);
    close(file);
    return data;
}

/* Memory that has been written once, so that no first touch falls into a measurement. */
static inline void *touched(size_t size, int value)
{
    void *memory = malloc(size ? size : 1);
    if (memory == NULL)
        stop("out of memory", "benchmark");
    memset(memory, value, size);
    return memory;
}

/* A buffer for the most rows that so many bytes can have; what isn't written is never touched. */
static inline uint32_t *most_rows(size_t size, size_t *rows_len)
{
    *rows_len = size / 8 * ROW_NUMBERS;
    uint32_t *rows = malloc(*rows_len * sizeof *rows + 1);
    if (rows == NULL)
        stop("out of memory", "benchmark");
    return rows;
}

static inline double now(void)
{
    struct timespec t;
    clock_gettime(CLOCK_MONOTONIC, &t);
    return (double)t.tv_sec * 1e9 + (double)t.tv_nsec;
}

/* The thread's processor time. */
static inline double spent(void)
{
    struct timespec t;
    clock_gettime(CLOCK_THREAD_CPUTIME_ID, &t);
    return (double)t.tv_sec * 1e9 + (double)t.tv_nsec;
}

static inline int by_size(const void *a, const void *b)
{
    double x = *(const double *)a, y = *(const double *)b;
    return (x > y) - (x < y);
}

static inline double median(double *times, int count)
{
    qsort(times, (size_t)count, sizeof *times, by_size);
    return count % 2 ? times[count / 2] : (times[count / 2 - 1] + times[count / 2]) / 2;
}

#endif
