/* Millsalder: a verified file system for persistent memory, in an image that a program embeds.
 *
 * The library computes, and makes no system call: it is given the bytes of an image, holds them in memory, and tells which
 * lines of 64 bytes the medium has to see, in which order, with syncs between them. Whoever embeds it does that: over a file
 * by millsalder_file.h, which is a page of C, over a disk, a network or persistent memory by the like of it.
 *
 * What is proved. Each call does to the tree what its name says of a plain tree of byte strings, or answers why not and
 * changes nothing. If the medium sees the lines in their order, each sync done before the next line, then what a crash
 * leaves at any moment opens as the tree after some front of the calls, that is the tree after k calls with no call in
 * part; and once the sync of a call is done, k counts it. What the medium does is trusted.
 *
 * What a caller owes. Nothing checks a C caller, so each of these is yours:
 * - A msa is zeroed before its first use (msa m = MSA_INIT), and only msa_ calls change it from then on. It may be moved by
 *   assignment while no call runs; the copy that is not used again is forgotten, never closed.
 * - Pointers are never null, also where the length is 0, and what a call writes overlaps nothing else that it is given.
 * - One call at a time on one msa; several msa may be used by several threads at once. A msa goes from one thread to
 *   another over a lock, a join or a sequentially consistent atomic.
 * - Not from a signal handler. After fork of a process with threads not in the child; after fork only one of the two
 *   processes ships what is asked.
 * - malloc, realloc and free are those of the C library, from any thread. Memory: the image's size and 1/20 of it in
 *   msa_open and msa_format; in changes 80 bytes for each line that was asked since C last took all. Where that is not there a
 *   change, or the recovery of msa_open, answers MSA_FAULT, and nothing more is asked of the medium.
 * - 64 KiB of stack below the call, 128 KiB below those of millsalder_file.h.
 *
 * Paths are bytes: '/' first, names of 1 to 248 bytes without '/' and 0, not '.' and '..', 4,096 bytes in all; "/" is the
 * root. Numbers are bytes unless they say otherwise. A call that is refused has changed nothing and asks for nothing. */
#ifndef MILLSALDER_H
#define MILLSALDER_H

#include <stdbool.h>
#include <stddef.h>
#include <stdint.h>

#ifdef __cplusplus
extern "C" {
#endif

/* The version of this header. A library with the same first number serves it: msa_abi() / 1000 == MSA_ABI / 1000. A number
 * of a status, a field or a function is never given another meaning; new ones may come under a higher second number. */
#define MSA_ABI 1001u

#define MSA_PAGE 4096u                     /* bytes */
#define MSA_FEWEST_PAGES 256u
#define MSA_MOST_PAGES 262144u             /* 1 GiB */
#define MSA_MOST_INODES 1048576u           /* files and directories, the root among them; at least 2 */
#define MSA_FILE_BYTES (UINT64_C(1) << 39) /* the most of one file */
#define MSA_NAME_BYTES 248u
#define MSA_PATH_BYTES 4096u
#define MSA_READ_BYTES 1048576u            /* the most of one msa_read */
#define MSA_EXCHANGE_PAGES 4000u           /* the most of one msa_exchange */

/* One mounted image. Its fields are nobody's but the library's. */
typedef struct msa {
    bool is_open;
    void *inside;
} msa;
#define MSA_INIT {false, 0}

typedef uint32_t msa_status;
enum {
    MSA_OK = 0,
    /* Refused, and nothing has changed. The first that applies is answered. */
    MSA_BAD_PATH = 1,      /* the bytes are no path */
    MSA_NOT_FOUND = 2,     /* a name of the path is not in its directory */
    MSA_NOT_DIRECTORY = 3, /* a directory was wanted, and a file is there */
    MSA_IS_DIRECTORY = 4,  /* a file was wanted, and a directory is there */
    MSA_EXISTS = 5,        /* the name is there already */
    MSA_NOT_EMPTY = 6,     /* the directory has entries */
    MSA_INTO_ITSELF = 7,   /* a directory would come below itself */
    MSA_IS_ROOT = 8,       /* the root cannot be moved or removed */
    MSA_TOO_BIG = 9,       /* a file would be longer than MSA_FILE_BYTES */
    MSA_BAD_RANGE = 10,    /* a range is not of whole pages, or ends past its file */
    MSA_OVERLAP = 11,      /* two ranges of one file share a byte */
    MSA_TOO_LONG = 12,     /* more bytes than one call may read or exchange */
    MSA_NO_INODE = 13,     /* all inodes are in use */
    MSA_NO_PARTITION = 14, /* no partition is free: msa_space tells of which level */
    MSA_NO_PAGES = 15,     /* fewer pages are free than the call needs: msa_space tells both */
    /* Not refused: the call is done whole or not at all, and which it was the next msa_open finds. Every later call on
     * this msa but msa_peek and msa_close answers MSA_DEAD. */
    MSA_FAULT = 64,        /* memory for what is asked ran out; in millsalder_file.h also: the file could not be written */
    MSA_DEAD = 65,         /* an earlier call on this msa answered MSA_FAULT */
    /* Nothing was mounted, or the call was none. */
    MSA_NO_FILE = 66,      /* millsalder_file.h: the descriptor could not be measured or read */
    MSA_NO_MEMORY = 67,
    MSA_LOCKED = 68,       /* millsalder_file.h: somebody else has the lock on the file */
    MSA_CLOSED = 69,       /* the msa is not open */
    MSA_BUSY = 70,         /* the msa is open already */
    MSA_MISUSE = 71,       /* an argument is out of its range: inodes, pages, bytes that are no whole pages */
    MSA_DAMAGE = 128       /* to 148: no image, by mount rule status - 128. Nothing is asked of the medium below 136 */
};

/* What a path leads to: a file and its bytes, or a directory and its entries. */
typedef struct msa_told {
    bool is_directory;
    uint64_t size;
} msa_told;

/* The numbers of the last refusal for space: of which level no partition was free; or how many pages were
 * free and how many the call needed; 0 where it was for the other, or there was none. And how many pages are free now, of all. */
typedef struct msa_numbers {
    uint32_t level;
    uint64_t were_free, needed, free, pages;
} msa_numbers;

/* MSA_ABI of the library; the text of a status in English, of which as many bytes are put as have room, with no 0 behind
 * them: the answer is the text's length. */
uint32_t msa_abi(void);
size_t msa_text(msa_status status, uint8_t *text, size_t room);

/* --- an image ------------------------------------------------------------------------------------------------------- */

/* Opens an image from its bytes, whole pages, which are copied: a call that a crash cut off is done whole or not at all, and
 * what that takes is asked of the medium. Where this answers another status than MSA_OK nothing is asked. */
msa_status msa_open(msa *m, const uint8_t *image, size_t len);

/* Makes an image of so many pages with an empty root. All of it that is not zero is asked of a medium of zeros; on another
 * medium the pages up to 41 are zeroed first. Until the last sync a crash leaves what is refused, or the empty tree. */
msa_status msa_format(msa *m, uint64_t pages, uint64_t inodes);

/* Gives the memory back, and forgets what was asked and not taken: a crash, to the medium. */
msa_status msa_close(msa *m);

/* --- what the medium has to see ------------------------------------------------------------------------------------ */

/* What is asked: a line of the image, 64 bytes at offset 64 * line, as eight words with the lowest byte first, is to be
 * written before the next sync is done; or, where is_sync, all that was written is to be there before anything else is. A line
 * that reads as it was asked last is not asked again. */
typedef struct msa_entry {
    bool is_sync;
    uint64_t line;
    uint64_t words[8];
} msa_entry;

/* Takes what is asked next, in order, as much as there is and room is for: *count says how much, and 0 that no more is asked.
 * What was taken is done, in order, before this is called again: the call that answers 0 forgets it. Neighbouring lines may
 * be written at once. Where a call before answered MSA_FAULT nothing is asked. */
msa_status msa_take(msa *m, msa_entry *entries, size_t room, size_t *count);

/* --- changes: each is whole or absent. What it asks of the medium is behind what was asked before ---------------------- */

msa_status msa_create(msa *m, const uint8_t *path, size_t path_len);
msa_status msa_mkdir(msa *m, const uint8_t *path, size_t path_len);
/* From offset off on; zeros before it where the file is shorter. A write of no bytes changes nothing. */
msa_status msa_write(msa *m, const uint8_t *path, size_t path_len, uint64_t off, const uint8_t *bytes, size_t len);
msa_status msa_fill(msa *m, const uint8_t *path, size_t path_len, uint64_t off, uint64_t len, uint8_t byte);
msa_status msa_append(msa *m, const uint8_t *path, size_t path_len, const uint8_t *bytes, size_t len);
/* Cuts the file, or lengthens it by zeros that take no page. */
msa_status msa_truncate(msa *m, const uint8_t *path, size_t path_len, uint64_t len);
/* Exchanges whole pages of two files, or of one; no byte is copied. */
msa_status msa_exchange(msa *m, const uint8_t *path, size_t path_len, uint64_t off, const uint8_t *other, size_t other_len,
                        uint64_t other_off, uint64_t len);
msa_status msa_unlink(msa *m, const uint8_t *path, size_t path_len);
msa_status msa_rmdir(msa *m, const uint8_t *path, size_t path_len);
/* A file or an empty directory at `to` goes, where both are files or both directories. */
msa_status msa_rename(msa *m, const uint8_t *path, size_t path_len, const uint8_t *to, size_t to_len);

/* --- looks: they change nothing, in the file too ---------------------------------------------------------------------- */

/* At most room bytes from off on, fewer only at the file's end: *read says how many. MSA_TOO_LONG over MSA_READ_BYTES. */
msa_status msa_read(msa *m, const uint8_t *path, size_t path_len, uint64_t off, uint8_t *bytes, size_t room, uint64_t *read);
msa_status msa_stat(msa *m, const uint8_t *path, size_t path_len, msa_told *told);
/* The names of a directory in byte order: the first after `after`, which need not be there; after_len 0 begins. *name_len
 * is 0 after the last; MSA_MISUSE where the name has no room. The tree may change between two calls.
 *     uint8_t name[MSA_NAME_BYTES]; size_t len = 0;
 *     while (msa_next(&m, path, n, name, len, next, sizeof next, &len) == MSA_OK && len) { memcpy(name, next, len); .. } */
msa_status msa_next(msa *m, const uint8_t *path, size_t path_len, const uint8_t *after, size_t after_len,
                    uint8_t *name, size_t room, size_t *name_len);
/* Where data come next from off on: *next, or off where there is a page; UINT64_MAX where only zeros come. */
msa_status msa_seek_data(msa *m, const uint8_t *path, size_t path_len, uint64_t off, uint64_t *next);
/* The address and the level of a file's partition, 0 and 15 where it has none; the byte at an address below 2^48. */
msa_status msa_locate(msa *m, const uint8_t *path, size_t path_len, uint64_t *address, uint32_t *level);
msa_status msa_peek(msa *m, uint64_t address, uint8_t *byte);
msa_status msa_space(msa *m, msa_numbers *numbers);

#ifdef __cplusplus
}
#endif
#endif
