/* SQLite over a mounted image: each database and journal is a file of the image. */
#ifndef MSA_VFS_H
#define MSA_VFS_H

#include "millsalder.h"

/* What the file system took from SQLite since it was registered, for benches. */
typedef struct msa_vfs_counts {
    unsigned long long reads, writes, syncs, calls, bytes;
} msa_vfs_counts;

/* Has the medium see what is asked, as millsalder_file.h does for a file. */
typedef msa_status (*msa_vfs_sync)(msa *m, void *medium);

/* Registers the image under a name, "millsalder" say. The msa stays open as long as SQLite uses it. Where is_direct, each
 * write of SQLite is a call of its own; else writes wait in their order and are made at SQLite's next sync.
 * 0, or an error of SQLite. */
int msa_vfs_register(msa *m, msa_vfs_sync sync, void *medium, const char *name, int is_direct);
msa_vfs_counts msa_vfs_counted(void);

#endif
