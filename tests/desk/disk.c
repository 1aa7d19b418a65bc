/* A stand-in for bad storage. Preloaded, it makes calls on files fail or hang, by words in their paths:
 *
 *   bad-sector   reading past byte 4096 fails with EIO
 *   slow-disk    each read takes a minute
 *   full-disk    writing fails with ENOSPC
 *   lost-disk    syncing fails with EIO
 */
#define _GNU_SOURCE
#include <dlfcn.h>
#include <errno.h>
#include <stdio.h>
#include <string.h>
#include <unistd.h>

static int stands_in(int fd, const char *part) {
    char link[64], path[4097];
    snprintf(link, sizeof link, "/proc/self/fd/%d", fd);
    ssize_t length = readlink(link, path, sizeof path - 1);
    if (length < 0) return 0;
    path[length] = 0;
    return strstr(path, part) != NULL;
}

ssize_t read(int fd, void *to, size_t size) {
    static ssize_t (*real)(int, void *, size_t);
    if (!real) real = dlsym(RTLD_NEXT, "read");
    if (stands_in(fd, "slow-disk")) sleep(60);
    if (stands_in(fd, "bad-sector")) {
        if (lseek(fd, 0, SEEK_CUR) >= 4096) {
            errno = EIO;
            return -1;
        }
        if (size > 4096) size = 4096;
    }
    return real(fd, to, size);
}

ssize_t pread64(int fd, void *to, size_t size, off64_t at) {
    static ssize_t (*real)(int, void *, size_t, off64_t);
    if (!real) real = dlsym(RTLD_NEXT, "pread64");
    if (stands_in(fd, "slow-disk")) sleep(60);
    if (stands_in(fd, "bad-sector")) {
        if (at >= 4096) {
            errno = EIO;
            return -1;
        }
        if (size > 4096) size = 4096;
    }
    return real(fd, to, size, at);
}

ssize_t write(int fd, const void *from, size_t size) {
    static ssize_t (*real)(int, const void *, size_t);
    if (!real) real = dlsym(RTLD_NEXT, "write");
    if (stands_in(fd, "full-disk")) {
        errno = ENOSPC;
        return -1;
    }
    return real(fd, from, size);
}

int fsync(int fd) {
    static int (*real)(int);
    if (!real) real = dlsym(RTLD_NEXT, "fsync");
    if (stands_in(fd, "lost-disk")) {
        errno = EIO;
        return -1;
    }
    return real(fd);
}
