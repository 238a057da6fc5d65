/* What a C program meets: handles that are closed or open, bytes that are no image, what is asked of the medium, memory that is
 * refused, a file that fails, a small stack, a second thread: rows FOLDER. It ends with 0 where all is as it is promised. Linked with
 * -Wl,--wrap=malloc,--wrap=realloc. */
#include "millsalder_file.h"

#include <fcntl.h>
#include <pthread.h>
#include <signal.h>
#include <stdio.h>
#include <stdlib.h>
#include <string.h>
#include <sys/resource.h>

#define PATH(text) (const uint8_t *)(text), strlen(text)

enum { PAGES = 256, BYTES = PAGES * 4096, ROOM = 65536 };

static const char *where = "";
static uint8_t image[BYTES], before[BYTES];
static msa_entry asked[ROOM];

static void want(const char *what, uint64_t wanted, uint64_t found) {
    if (wanted == found) return;
    fprintf(stderr, "%s: %s: %llu, and not %llu\n", where, what, (unsigned long long)found, (unsigned long long)wanted);
    exit(1);
}

/* --- memory: the allocation of this number is refused, counted from 1 ------------------------------------------------- */

static long until_refused;

void *__real_malloc(size_t size);
void *__real_realloc(void *at, size_t size);
void *__wrap_malloc(size_t size);
void *__wrap_realloc(void *at, size_t size);

void *__wrap_malloc(size_t size) { return until_refused && --until_refused == 0 ? 0 : __real_malloc(size); }
void *__wrap_realloc(void *at, size_t size) { return until_refused && --until_refused == 0 ? 0 : __real_realloc(at, size); }

/* --- a medium that is an array ------------------------------------------------------------------------------------------ */

/* Takes all that is asked: how many entries. */
static size_t take(msa *m) {
    size_t used = 0, more = 0;
    do {
        want("room", 1, used + 64 <= ROOM);
        want("take", MSA_OK, msa_take(m, asked + used, 64, &more));
        used += more;
    } while (more);
    return used;
}

static void put(uint8_t *medium, const msa_entry *entry) {
    if (entry->is_sync) return;
    for (int k = 0; k < 8; k++)
        for (int b = 0; b < 8; b++) medium[64 * entry->line + (size_t)(8 * k + b)] = (uint8_t)(entry->words[k] >> (8 * b));
}

static size_t ship(msa *m, uint8_t *medium) {
    size_t count = take(m);
    for (size_t at = 0; at < count; at++) put(medium, asked + at);
    return count;
}

static size_t syncs(size_t count) {
    size_t found = 0;
    for (size_t at = 0; at < count; at++) found += asked[at].is_sync;
    return found;
}

/* A file system of an empty tree, open, and in the array. */
static void formatted(msa *m) {
    memset(image, 0, BYTES);
    want("format", MSA_OK, msa_format(m, PAGES, 16));
    ship(m, image);
}

/* --- rows ---------------------------------------------------------------------------------------------------------------- */

static void handles(void) {
    where = "handles";
    msa m = MSA_INIT;
    msa_told told;
    msa_numbers numbers;
    size_t count = 7;
    want("create on a closed one", MSA_CLOSED, msa_create(&m, PATH("/a")));
    want("take of a closed one", MSA_CLOSED, msa_take(&m, asked, 1, &count));
    want("its count", 7, count);
    want("space of a closed one", MSA_CLOSED, msa_space(&m, &numbers));
    formatted(&m);
    want("create", MSA_OK, msa_create(&m, PATH("/a")));
    want("open of an open one", MSA_BUSY, msa_open(&m, image, BYTES));
    want("format of an open one", MSA_BUSY, msa_format(&m, PAGES, 16));
    want("the mount stays", MSA_OK, msa_stat(&m, PATH("/a"), &told));
    want("close", MSA_OK, msa_close(&m));
    want("close again", MSA_CLOSED, msa_close(&m));
    want("version", MSA_ABI / 1000, msa_abi() / 1000);
}

static void refused(const char *what, msa_status wanted, size_t len) {
    msa m = MSA_INIT;
    size_t count = 0;
    want(what, wanted, msa_open(&m, image, len));
    want("nothing is asked", MSA_CLOSED, msa_take(&m, asked, 1, &count));
}

static void images(void) {
    where = "images";
    msa m = MSA_INIT;
    memset(image, 0, BYTES);
    refused("bytes of no whole page", MSA_MISUSE, BYTES - 1);
    refused("255 pages", MSA_DAMAGE, BYTES - 4096);
    refused("zeros", MSA_DAMAGE + 1, BYTES);
    formatted(&m);
    want("close", MSA_OK, msa_close(&m));
    memcpy(image + 8 * 17413, "\x01\x20\x02\0\0\0\0", 8); /* 139,265 */
    refused("a table that is linked twice", MSA_DAMAGE + 9, BYTES);
    want("pages", MSA_MISUSE, msa_format(&m, MSA_MOST_PAGES + 1, 16));
    want("inodes", MSA_MISUSE, msa_format(&m, PAGES, 1));
    want("too few pages", MSA_DAMAGE, msa_format(&m, 255, 16));
}

static void asks(void) {
    where = "asks";
    msa m = MSA_INIT;
    static uint8_t page[4096];
    formatted(&m);
    want("the first create, which makes tables", MSA_OK, msa_create(&m, PATH("/first")));
    take(&m);
    want("create", MSA_OK, msa_create(&m, PATH("/a")));
    size_t count = take(&m);
    want("syncs of a create", 4, syncs(count));
    want("the last entry is a sync", 1, asked[count - 1].is_sync);
    want("at most 20 lines", 1, count - 4 <= 20);
    printf("create: %zu lines, 4 syncs", count - 4);
    want("then nothing", 0, take(&m));
    want("create again", MSA_EXISTS, msa_create(&m, PATH("/a")));
    want("a refused call asks nothing", 0, take(&m));
    want("write", MSA_OK, msa_write(&m, PATH("/a"), 0, page, 20));
    take(&m);
    memset(page, 'x', sizeof page);
    want("append", MSA_OK, msa_append(&m, PATH("/a"), page, 20));
    count = take(&m);
    want("at most 267 lines", 1, count - syncs(count) <= 267);
    printf("; append in a page: %zu lines, %zu syncs", count - syncs(count), syncs(count));
    want("write", MSA_OK, msa_write(&m, PATH("/a"), 0, page, sizeof page));
    count = take(&m);
    printf("; page in place: %zu lines, %zu syncs\n", count - syncs(count), syncs(count));
    want("close", MSA_OK, msa_close(&m));
}

static void space(void) {
    where = "space";
    msa m = MSA_INIT;
    msa_numbers numbers, later;
    uint8_t text[8], all[64];
    formatted(&m);
    want("create", MSA_OK, msa_create(&m, PATH("/a")));
    want("space", MSA_OK, msa_space(&m, &numbers));
    want("none was refused", 0, numbers.needed + numbers.were_free + numbers.level);
    want("all pages", PAGES, numbers.pages);
    want("fill", MSA_NO_PAGES, msa_fill(&m, PATH("/a"), 0, 4 * BYTES, 'x'));
    want("space", MSA_OK, msa_space(&m, &later));
    want("free then", numbers.free, later.were_free);
    want("needed more", 1, later.needed > later.were_free);
    want("free now", numbers.free, later.free);
    want("another refusal", MSA_EXISTS, msa_create(&m, PATH("/a")));
    want("space", MSA_OK, msa_space(&m, &numbers));
    want("the numbers stay", later.needed, numbers.needed);
    want("length of a text", 8, msa_text(MSA_NO_PAGES, all, sizeof all));
    want("text", 0, (uint64_t)memcmp(all, "no pages", 8));
    want("length of a text that is cut", 9, msa_text(MSA_NOT_FOUND, text, 4));
    want("its front", 0, (uint64_t)memcmp(text, "not ", 4));
    want("close", MSA_OK, msa_close(&m));
}

static void names(void) {
    where = "names";
    msa m = MSA_INIT;
    uint8_t name[MSA_NAME_BYTES] = "......";
    size_t len = 99;
    formatted(&m);
    want("create", MSA_OK, msa_create(&m, PATH("/abcdef")));
    want("no room", MSA_MISUSE, msa_next(&m, PATH("/"), name, 0, name, 5, &len));
    want("the length stays", 99, len);
    want("the buffer stays", 0, (uint64_t)memcmp(name, "......", 6));
    want("room", MSA_OK, msa_next(&m, PATH("/"), name, 0, name + 8, 6, &len));
    want("the length", 6, len);
    want("the name", 0, (uint64_t)memcmp(name + 8, "abcdef", 6));
    want("close", MSA_OK, msa_close(&m));
}

/* What an image holds: 0 nothing, 1 the file of the call, and nothing else. */
static int found(const uint8_t *medium) {
    msa m = MSA_INIT;
    msa_told told;
    want("open", MSA_OK, msa_open(&m, medium, BYTES));
    msa_status status = msa_stat(&m, PATH("/new"), &told);
    want("close", MSA_OK, msa_close(&m));
    return status == MSA_OK;
}

/* Memory refused at each allocation in turn, in an open that has a call to finish. */
static void opens_without_memory(void) {
    where = "memory in an open";
    msa m = MSA_INIT;
    size_t none = 0, faults = 0;
    formatted(&m);
    want("create", MSA_OK, msa_create(&m, PATH("/new")));
    size_t count = take(&m);
    want("close", MSA_OK, msa_close(&m));
    for (size_t front = 0; front <= count; front++) {
        if (front) put(image, asked + front - 1);
        for (long number = 1;; number++) {
            until_refused = number;
            msa_status status = msa_open(&m, image, BYTES);
            int is_whole = until_refused > 0;
            until_refused = 0;
            if (is_whole) {
                want("open", MSA_OK, status);
                want("close", MSA_OK, msa_close(&m));
                break;
            }
            if (status == MSA_FAULT) faults++;
            else want("status", MSA_NO_MEMORY, status), none++;
            want("a closed handle", MSA_CLOSED, msa_close(&m));
        }
    }
    want("some is refused before the recovery", 1, none > 0);
    want("some is refused in it", 1, faults > 0);
    want("the call is done", 1, (uint64_t)found(image));
}

/* And in a change. */
static void changes_without_memory(void) {
    where = "memory in a change";
    msa m = MSA_INIT;
    msa_numbers numbers;
    uint8_t byte = 7;
    long number = 1;
    formatted(&m);
    want("close", MSA_OK, msa_close(&m));
    memcpy(before, image, BYTES);
    for (;; number++) {
        want("open", MSA_OK, msa_open(&m, image, BYTES));
        until_refused = number;
        msa_status status = msa_create(&m, PATH("/new"));
        int is_whole = until_refused > 0;
        until_refused = 0;
        if (is_whole) {
            want("create", MSA_OK, status);
            want("close", MSA_OK, msa_close(&m));
            break;
        }
        want("create", MSA_FAULT, status);
        want("the next call", MSA_DEAD, msa_mkdir(&m, PATH("/other")));
        want("space", MSA_DEAD, msa_space(&m, &numbers));
        want("peek", MSA_OK, msa_peek(&m, 0, &byte));
        want("nothing is asked", 0, ship(&m, image));
        want("the medium is as it was", 0, (uint64_t)memcmp(before, image, BYTES));
        want("close", MSA_OK, msa_close(&m));
        want("what is there", 0, (uint64_t)found(image));
    }
    want("memory was taken", 1, number > 1);
}

/* A file that fails in the middle of a sync: from an offset on it takes no byte, or its descriptor is closed. */
static void files(const char *folder) {
    where = "files";
    char path[600];
    snprintf(path, sizeof path, "%s/medium", folder);
    signal(SIGXFSZ, SIG_IGN);
    struct rlimit all, few;
    want("limit", 0, (uint64_t)getrlimit(RLIMIT_FSIZE, &all));
    for (int pages = 0; pages <= 43; pages++) {
        msa m = MSA_INIT;
        msa_told told;
        int fd = open(path, O_RDWR | O_CREAT | O_TRUNC, 0666);
        want("file", 1, fd >= 0 && ftruncate(fd, BYTES) == 0);
        want("format", MSA_OK, msa_file_format(&m, fd, 16, MSA_LOCK));
        want("create", MSA_OK, msa_create(&m, PATH("/new")));
        int reader = dup(fd);
        if (pages == 0) close(fd);
        few = all;
        few.rlim_cur = (rlim_t)pages * MSA_PAGE;
        if (pages) want("limit", 0, (uint64_t)setrlimit(RLIMIT_FSIZE, &few));
        msa_status status = msa_file_sync(&m, fd);
        if (pages) want("limit", 0, (uint64_t)setrlimit(RLIMIT_FSIZE, &all));
        if (status != MSA_OK) want("sync", MSA_FAULT, status);
        if (pages == 0) want("a closed descriptor", MSA_FAULT, status);
        want("closed after a fault", status == MSA_OK ? MSA_OK : MSA_CLOSED, msa_close(&m));
        want("open", MSA_OK, msa_file_open(&m, reader, 0));
        msa_status is_there = msa_stat(&m, PATH("/new"), &told);
        want("as before or after", 1, is_there == MSA_OK || (is_there == MSA_NOT_FOUND && status != MSA_OK));
        want("close", MSA_OK, msa_close(&m));
        if (pages) close(fd);
        close(reader);
    }
    unlink(path);
}

static void *works(void *at) {
    msa *m = at;
    static uint8_t page[4096];
    msa_told told;
    if (!m->is_open) {
        want("format", MSA_OK, msa_format(m, PAGES, 16));
        want("create", MSA_OK, msa_create(m, PATH("/a")));
    }
    want("write", MSA_OK, msa_append(m, PATH("/a"), page, sizeof page));
    want("stat", MSA_OK, msa_stat(m, PATH("/a"), &told));
    want("mkdir and back", MSA_OK, msa_mkdir(m, PATH("/d")) || msa_rename(m, PATH("/a"), PATH("/d/a")) || msa_rename(m, PATH("/d/a"), PATH("/a")) || msa_rmdir(m, PATH("/d")));
    return (void *)(size_t)told.size;
}

static void threads(void) {
    where = "threads";
    msa m = MSA_INIT;
    memset(image, 0, BYTES);
    for (size_t turn = 1; turn <= 2; turn++) {
        pthread_t thread;
        pthread_attr_t small;
        void *size = 0;
        pthread_attr_init(&small);
        want("a stack of 64 KiB", 0, (uint64_t)pthread_attr_setstacksize(&small, 65536));
        want("start", 0, (uint64_t)pthread_create(&thread, &small, works, &m));
        want("join", 0, (uint64_t)pthread_join(thread, &size));
        want("size", 4096 * turn, (size_t)size);
    }
    ship(&m, image);
    want("close", MSA_OK, msa_close(&m));
    want("open", MSA_OK, msa_open(&m, image, BYTES));
    want("close", MSA_OK, msa_close(&m));
}

int main(int count, char **words) {
    if (count != 2) return 2;
    handles();
    images();
    asks();
    space();
    names();
    opens_without_memory();
    changes_without_memory();
    files(words[1]);
    threads();
    return 0;
}
