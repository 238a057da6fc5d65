/* Millsalder over a file, by its descriptor: what millsalder.h asks of a medium, by pread, pwrite, fdatasync and flock.
 *
 * The descriptor is open for reading and writing, without O_APPEND, and stays the caller's, who closes it after the msa.
 * While a msa is over it nobody else reads or writes the file. A signal does no harm to reads and writes. */
#ifndef MILLSALDER_FILE_H
#define MILLSALDER_FILE_H

#include "millsalder.h"

#include <errno.h>
#include <stdlib.h>
#include <string.h>
#include <sys/file.h>
#include <sys/stat.h>
#include <unistd.h>

/* Writes bytes at an offset, all of them: 0, or -1. */
static inline int msa_file_put(int fd, const uint8_t *bytes, size_t len, off_t off) {
    while (len) {
        ssize_t put = pwrite(fd, bytes, len, off);
        if (put < 0 && errno == EINTR) continue;
        if (put <= 0) return -1;
        bytes += put, off += put, len -= (size_t)put;
    }
    return 0;
}

/* Neighbouring lines are gathered, and written at once. */
typedef struct msa_file_run {
    uint64_t first;
    size_t used;
    bool is_written; /* since the last sync */
    uint8_t bytes[1 << 16];
} msa_file_run;

static inline int msa_file_flush(msa_file_run *run, int fd) {
    size_t used = run->used;
    if (!used) return 0;
    run->is_written = true, run->used = 0;
    return msa_file_put(fd, run->bytes, used, (off_t)(64 * run->first));
}

/* Does one thing that is asked: 0, or -1. */
static inline int msa_file_do(msa_file_run *run, int fd, const msa_entry *entry) {
    if (entry->is_sync) {
        if (msa_file_flush(run, fd) != 0 || (run->is_written && fdatasync(fd) != 0)) return -1;
        run->is_written = false;
        return 0;
    }
    bool is_next = run->used && run->used < sizeof run->bytes && entry->line == run->first + run->used / 64;
    if (!is_next && msa_file_flush(run, fd) != 0) return -1;
    if (!run->used) run->first = entry->line;
    memcpy(run->bytes + run->used, entry->words, 64);
    run->used += 64;
    return 0;
}

/* Has the file see what is asked: after MSA_OK every call before is in it, synced. After MSA_FAULT the msa is closed. */
static inline msa_status msa_file_sync(msa *m, int fd) {
    msa_entry entries[64];
    msa_file_run run;
    size_t count = 0, at = 0;
    run.used = run.is_written = 0;
    for (;;) {
        msa_status status = msa_take(m, entries, 64, &count);
        if (status != MSA_OK) return status;
        if (!count) break;
        for (at = 0; at < count; at += 1)
            if (msa_file_do(&run, fd, entries + at) != 0) goto failed;
    }
    if (msa_file_flush(&run, fd) == 0) return MSA_OK;
failed:
    msa_close(m);
    return MSA_FAULT;
}

#define MSA_LOCK 1u /* an exclusive flock on the descriptor, or MSA_LOCKED at once; closing the descriptor gives it up */

/* Locks the file, where that is asked, and tells the bytes of its whole pages. */
static inline msa_status msa_file_begin(int fd, uint32_t flags, size_t *len) {
    struct stat told;
    if (flags & ~MSA_LOCK) return MSA_MISUSE;
    if ((flags & MSA_LOCK) && flock(fd, LOCK_EX | LOCK_NB) != 0) return MSA_LOCKED;
    if (fstat(fd, &told) != 0) return MSA_NO_FILE;
    *len = (size_t)told.st_size / MSA_PAGE * MSA_PAGE;
    return MSA_OK;
}

/* Opens the image of a file, and has the file see what its recovery asks. */
static inline msa_status msa_file_open(msa *m, int fd, uint32_t flags) {
    size_t len = 0, got = 0;
    msa_status status = msa_file_begin(fd, flags, &len);
    if (status != MSA_OK) return status;
    uint8_t *image = (uint8_t *)malloc(len + 1);
    if (!image) return MSA_NO_MEMORY;
    while (got < len) {
        ssize_t more = pread(fd, image + got, len - got, (off_t)got);
        if (more == 0 || (more < 0 && errno != EINTR)) break;
        if (more > 0) got += (size_t)more;
    }
    status = MSA_NO_FILE; /* what a killed writer left may not be synced yet */
    if (got == len && fdatasync(fd) == 0) status = msa_open(m, image, len);
    free(image);
    return status == MSA_OK ? msa_file_sync(m, fd) : status;
}

/* Makes an image of all whole pages of a file, and opens it. */
static inline msa_status msa_file_format(msa *m, int fd, uint64_t inodes, uint32_t flags) {
    static const uint8_t zeros[42 * MSA_PAGE] = {0};
    size_t len = 0;
    msa_status status = msa_file_begin(fd, flags, &len);
    if (status == MSA_OK) status = msa_format(m, len / MSA_PAGE, inodes);
    if (status != MSA_OK) return status;
    if (msa_file_put(fd, zeros, sizeof zeros, 0) == 0 && fdatasync(fd) == 0) return msa_file_sync(m, fd);
    msa_close(m);
    return MSA_FAULT;
}

#endif
