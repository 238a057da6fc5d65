/* A VFS of SQLite over a mounted image.
 *
 * A crash leaves the image after some front of the calls, and after a sync all of them: that is what SQLite asks of writes
 * under SQLITE_IOCAP_SEQUENTIAL. Each write would be a record of its own, so writes wait here in one queue for all files,
 * neighbours joined, until a sync makes them in their order. A file that is removed, cut or closed goes through the queue
 * first. */
#include "msa_vfs.h"

#include <sqlite3.h>
#include <stdio.h>
#include <stdlib.h>
#include <string.h>

enum { ROOM = 4 << 20, MOST_WAITING = 4096 };

/* A write that waits. */
struct waiting {
    struct node *node;
    sqlite3_int64 off;
    size_t at, len; /* its bytes in the queue's room */
};

/* A file that is open, once for all its connections. */
struct node {
    char path[MSA_PATH_BYTES + 1];
    size_t path_len;
    int opened, shared, is_reserved, is_pending, is_exclusive;
    sqlite3_int64 size; /* with the writes that wait */
    struct node *next;
};

struct file {
    sqlite3_file base;
    struct node *node;
    int lock, is_deleted_on_close;
};

static struct {
    msa *image;
    msa_vfs_sync sync;
    void *medium;
    int is_direct;
    sqlite3_vfs *system; /* for time and random bytes */
    sqlite3_mutex *mutex;
    struct node *nodes;
    struct waiting queue[MOST_WAITING];
    size_t count, used;
    unsigned char *room;
    unsigned temporary;
    msa_vfs_counts counts;
} vfs;

#define ENTER sqlite3_mutex_enter(vfs.mutex)
#define LEAVE sqlite3_mutex_leave(vfs.mutex)
#define PATH(node) (const uint8_t *)(node)->path, (node)->path_len

/* What SQLite is told of a status. */
static int told(msa_status status, int error) {
    switch (status) {
    case MSA_OK: return SQLITE_OK;
    case MSA_NO_PAGES:
    case MSA_NO_PARTITION:
    case MSA_NO_INODE:
    case MSA_TOO_BIG: return SQLITE_FULL;
    default: return error;
    }
}

/* Makes the writes that wait. */
static int flush(int error) {
    for (size_t i = 0; i < vfs.count; i++) {
        struct waiting *w = &vfs.queue[i];
        vfs.counts.calls++;
        vfs.counts.bytes += w->len;
        msa_status status = msa_write(vfs.image, PATH(w->node), (uint64_t)w->off, vfs.room + w->at, w->len);
        if (status != MSA_OK) {
            memmove(vfs.queue, w, (vfs.count - i) * sizeof *w);
            vfs.count -= i;
            return told(status, error);
        }
    }
    vfs.count = vfs.used = 0;
    return SQLITE_OK;
}

/* Has a write wait: joined with the last one where it lies in it or follows it, in the same file. */
static int queue(struct node *node, const void *bytes, size_t len, sqlite3_int64 off) {
    if (vfs.used + len > ROOM || vfs.count == MOST_WAITING) {
        int result = flush(SQLITE_IOERR_WRITE);
        if (result != SQLITE_OK) return result;
    }
    struct waiting *last = vfs.count ? &vfs.queue[vfs.count - 1] : 0;
    if (last && last->node == node && off >= last->off && off + (sqlite3_int64)len <= last->off + (sqlite3_int64)last->len) {
        memcpy(vfs.room + last->at + (off - last->off), bytes, len);
        return SQLITE_OK;
    }
    memcpy(vfs.room + vfs.used, bytes, len);
    if (last && last->node == node && last->off + (sqlite3_int64)last->len == off) {
        last->len += len;
    } else {
        vfs.queue[vfs.count++] = (struct waiting){node, off, vfs.used, len};
    }
    vfs.used += len;
    return SQLITE_OK;
}

static int x_close(sqlite3_file *base) {
    struct file *f = (struct file *)base;
    ENTER;
    int result = flush(SQLITE_IOERR_CLOSE);
    struct node *node = f->node;
    if (--node->opened == 0) {
        if (f->is_deleted_on_close) msa_unlink(vfs.image, PATH(node));
        for (struct node **at = &vfs.nodes; *at; at = &(*at)->next)
            if (*at == node) {
                *at = node->next;
                break;
            }
        free(node);
    }
    LEAVE;
    return result;
}

static int x_read(sqlite3_file *base, void *bytes, int len, sqlite3_int64 off) {
    struct file *f = (struct file *)base;
    ENTER;
    vfs.counts.reads++;
    uint64_t got = 0;
    msa_status status = msa_read(vfs.image, PATH(f->node), (uint64_t)off, bytes, (size_t)len, &got);
    int result = told(status, SQLITE_IOERR_READ);
    if (result == SQLITE_OK) {
        if (got < (uint64_t)len) memset((char *)bytes + got, 0, (size_t)len - got);
        for (size_t i = 0; i < vfs.count; i++) {
            struct waiting *w = &vfs.queue[i];
            sqlite3_int64 from = w->off > off ? w->off : off;
            sqlite3_int64 to = w->off + (sqlite3_int64)w->len < off + len ? w->off + (sqlite3_int64)w->len : off + len;
            if (w->node == f->node && from < to)
                memcpy((char *)bytes + (from - off), vfs.room + w->at + (from - w->off), (size_t)(to - from));
        }
        if (off + len > f->node->size) result = SQLITE_IOERR_SHORT_READ;
    }
    LEAVE;
    return result;
}

static int x_write(sqlite3_file *base, const void *bytes, int len, sqlite3_int64 off) {
    struct file *f = (struct file *)base;
    ENTER;
    vfs.counts.writes++;
    int result;
    if (vfs.is_direct) {
        vfs.counts.calls++;
        vfs.counts.bytes += (unsigned)len;
        result = told(msa_write(vfs.image, PATH(f->node), (uint64_t)off, bytes, (size_t)len), SQLITE_IOERR_WRITE);
    } else {
        result = queue(f->node, bytes, (size_t)len, off);
    }
    if (result == SQLITE_OK && off + len > f->node->size) f->node->size = off + len;
    LEAVE;
    return result;
}

static int x_truncate(sqlite3_file *base, sqlite3_int64 size) {
    struct file *f = (struct file *)base;
    ENTER;
    int result = flush(SQLITE_IOERR_TRUNCATE);
    if (result == SQLITE_OK) {
        vfs.counts.calls++;
        result = told(msa_truncate(vfs.image, PATH(f->node), (uint64_t)size), SQLITE_IOERR_TRUNCATE);
    }
    if (result == SQLITE_OK) f->node->size = size;
    LEAVE;
    return result;
}

static int x_sync(sqlite3_file *base, int flags) {
    (void)base, (void)flags;
    ENTER;
    vfs.counts.syncs++;
    int result = flush(SQLITE_IOERR_FSYNC);
    if (result == SQLITE_OK) result = told(vfs.sync(vfs.image, vfs.medium), SQLITE_IOERR_FSYNC);
    LEAVE;
    return result;
}

static int x_size(sqlite3_file *base, sqlite3_int64 *size) {
    *size = ((struct file *)base)->node->size;
    return SQLITE_OK;
}

/* Locks among the connections of this process: nobody else has the image. */
static int x_lock(sqlite3_file *base, int level) {
    struct file *f = (struct file *)base;
    struct node *n = f->node;
    int result = SQLITE_OK;
    ENTER;
    if (level > f->lock) {
        if (level == SQLITE_LOCK_SHARED) {
            if (n->is_pending || n->is_exclusive) result = SQLITE_BUSY;
            else n->shared++;
        } else if (level == SQLITE_LOCK_RESERVED) {
            if (n->is_reserved) result = SQLITE_BUSY;
            else n->is_reserved = 1;
        } else {
            if (f->lock < SQLITE_LOCK_RESERVED && n->is_reserved) {
                result = SQLITE_BUSY;
            } else {
                n->is_reserved = n->is_pending = 1;
                if (n->shared > 1) {
                    f->lock = SQLITE_LOCK_PENDING;
                    result = SQLITE_BUSY;
                } else {
                    n->is_exclusive = 1;
                }
            }
        }
        if (result == SQLITE_OK) f->lock = level;
    }
    LEAVE;
    return result;
}

static int x_unlock(sqlite3_file *base, int level) {
    struct file *f = (struct file *)base;
    ENTER;
    if (level < f->lock) {
        if (f->lock >= SQLITE_LOCK_RESERVED) f->node->is_reserved = f->node->is_pending = f->node->is_exclusive = 0;
        if (level == SQLITE_LOCK_NONE) f->node->shared--;
        f->lock = level;
    }
    LEAVE;
    return SQLITE_OK;
}

static int x_check_reserved(sqlite3_file *base, int *result) {
    *result = ((struct file *)base)->node->is_reserved;
    return SQLITE_OK;
}

static int x_control(sqlite3_file *base, int op, void *arg) {
    (void)base, (void)op, (void)arg;
    return SQLITE_NOTFOUND;
}

static int x_sector(sqlite3_file *base) {
    (void)base;
    return MSA_PAGE;
}

static int x_device(sqlite3_file *base) {
    (void)base;
    return SQLITE_IOCAP_ATOMIC | SQLITE_IOCAP_SAFE_APPEND | SQLITE_IOCAP_SEQUENTIAL | SQLITE_IOCAP_POWERSAFE_OVERWRITE;
}

static const sqlite3_io_methods METHODS = {1,      x_close,  x_read,           x_write,   x_truncate, x_sync,  x_size,
                                           x_lock, x_unlock, x_check_reserved, x_control, x_sector,   x_device, 0,
                                           0,      0,        0,                0,         0};

static struct node *node_of(const char *path, sqlite3_int64 size) {
    for (struct node *n = vfs.nodes; n; n = n->next)
        if (strcmp(n->path, path) == 0) {
            n->opened++;
            return n;
        }
    struct node *n = calloc(1, sizeof *n);
    if (!n) return 0;
    n->path_len = strlen(path);
    memcpy(n->path, path, n->path_len + 1);
    n->opened = 1;
    n->size = size;
    n->next = vfs.nodes;
    return vfs.nodes = n;
}

static int x_open(sqlite3_vfs *self, const char *name, sqlite3_file *base, int flags, int *out_flags) {
    (void)self;
    struct file *f = (struct file *)base;
    memset(f, 0, sizeof *f);
    char temporary[40];
    ENTER;
    if (!name) {
        snprintf(temporary, sizeof temporary, "/temporary-%u", vfs.temporary++);
        name = temporary;
    }
    msa_told seen;
    size_t len = strlen(name);
    msa_status status = msa_stat(vfs.image, (const uint8_t *)name, len, &seen);
    if (status == MSA_NOT_FOUND && (flags & SQLITE_OPEN_CREATE)) {
        int result = flush(SQLITE_IOERR_WRITE);
        seen.is_directory = false;
        seen.size = 0;
        if (result == SQLITE_OK) {
            vfs.counts.calls++;
            status = msa_create(vfs.image, (const uint8_t *)name, len);
        }
    }
    if (status == MSA_OK && !seen.is_directory) f->node = node_of(name, (sqlite3_int64)seen.size);
    LEAVE;
    if (!f->node) return SQLITE_CANTOPEN;
    f->is_deleted_on_close = (flags & SQLITE_OPEN_DELETEONCLOSE) != 0;
    if (out_flags) *out_flags = flags;
    base->pMethods = &METHODS;
    return SQLITE_OK;
}

static int x_delete(sqlite3_vfs *self, const char *name, int is_synced) {
    (void)self;
    ENTER;
    int result = flush(SQLITE_IOERR_DELETE);
    if (result == SQLITE_OK) {
        vfs.counts.calls++;
        msa_status status = msa_unlink(vfs.image, (const uint8_t *)name, strlen(name));
        result = status == MSA_NOT_FOUND ? SQLITE_IOERR_DELETE_NOENT : told(status, SQLITE_IOERR_DELETE);
        if (result == SQLITE_OK && is_synced) result = told(vfs.sync(vfs.image, vfs.medium), SQLITE_IOERR_DELETE);
    }
    LEAVE;
    return result;
}

static int x_access(sqlite3_vfs *self, const char *name, int flags, int *result) {
    (void)self;
    msa_told seen;
    ENTER;
    msa_status status = msa_stat(vfs.image, (const uint8_t *)name, strlen(name), &seen);
    LEAVE;
    *result = status == MSA_OK && !(flags == SQLITE_ACCESS_EXISTS && !seen.is_directory && seen.size == 0);
    return status == MSA_OK || status == MSA_NOT_FOUND ? SQLITE_OK : SQLITE_IOERR_ACCESS;
}

static int x_full(sqlite3_vfs *self, const char *name, int room, char *out) {
    (void)self;
    return snprintf(out, (size_t)room, "%s%s", name[0] == '/' ? "" : "/", name) < room ? SQLITE_OK : SQLITE_CANTOPEN;
}

static int x_random(sqlite3_vfs *self, int count, char *out) {
    (void)self;
    return vfs.system->xRandomness(vfs.system, count, out);
}

static int x_sleep(sqlite3_vfs *self, int micros) {
    (void)self;
    return vfs.system->xSleep(vfs.system, micros);
}

static int x_time(sqlite3_vfs *self, double *now) {
    (void)self;
    return vfs.system->xCurrentTime(vfs.system, now);
}

static int x_last(sqlite3_vfs *self, int count, char *text) {
    (void)self, (void)count, (void)text;
    return 0;
}

int msa_vfs_register(msa *m, msa_vfs_sync sync, void *medium, const char *name, int is_direct) {
    static sqlite3_vfs self = {.iVersion = 1,
                               .szOsFile = sizeof(struct file),
                               .mxPathname = 1024,
                               .xOpen = x_open,
                               .xDelete = x_delete,
                               .xAccess = x_access,
                               .xFullPathname = x_full,
                               .xRandomness = x_random,
                               .xSleep = x_sleep,
                               .xCurrentTime = x_time,
                               .xGetLastError = x_last};
    vfs.system = sqlite3_vfs_find(0);
    vfs.mutex = sqlite3_mutex_alloc(SQLITE_MUTEX_RECURSIVE);
    vfs.room = malloc(ROOM);
    vfs.image = m;
    vfs.sync = sync;
    vfs.medium = medium;
    vfs.is_direct = is_direct;
    self.zName = name;
    return vfs.room && vfs.system ? sqlite3_vfs_register(&self, 0) : SQLITE_NOMEM;
}

msa_vfs_counts msa_vfs_counted(void) { return vfs.counts; }
