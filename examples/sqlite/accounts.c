/* Transactions over SQLite, in an image or in a plain folder.
 *     accounts image IMAGE MODE COUNT [direct] | accounts plain FOLDER MODE COUNT
 *     accounts check IMAGE [direct] | accounts check-plain FOLDER
 * MODE is a journal mode of SQLite (delete, truncate, persist, wal, memory). Each transaction moves an amount between two of
 * 1,000 accounts and writes a line of history; its number is written to standard output once it is committed. check opens
 * what is there, asks for SQLite's integrity, and tells the transactions and the sum of the accounts. */
#include "millsalder_file.h"
#include "msa_vfs.h"

#include <fcntl.h>
#include <sqlite3.h>
#include <stdio.h>
#include <stdlib.h>
#include <string.h>
#include <sys/stat.h>
#include <time.h>
#include <unistd.h>

static sqlite3 *db;

static void must(int result, const char *what) {
    if (result == SQLITE_OK || result == SQLITE_DONE || result == SQLITE_ROW) return;
    fprintf(stderr, "%s: %d %s\n", what, result, db ? sqlite3_errmsg(db) : "");
    exit(3);
}

static void run(const char *sql) { must(sqlite3_exec(db, sql, 0, 0, 0), sql); }

static long long number(const char *sql) {
    sqlite3_stmt *s;
    must(sqlite3_prepare_v2(db, sql, -1, &s, 0), sql);
    must(sqlite3_step(s), sql);
    long long n = sqlite3_column_int64(s, 0);
    sqlite3_finalize(s);
    return n;
}

static msa_status sync_file(msa *m, void *file) { return msa_file_sync(m, *(int *)file); }

static double now(void) {
    struct timespec t;
    clock_gettime(CLOCK_MONOTONIC, &t);
    return (double)t.tv_sec + (double)t.tv_nsec * 1e-9;
}

static void mode(const char *name) {
    char sql[80];
    run("pragma locking_mode=exclusive; pragma synchronous=full; pragma temp_store=memory");
    snprintf(sql, sizeof sql, "pragma journal_mode=%s", name);
    run(sql);
}

static void make(void) {
    run("begin; create table if not exists account (id integer primary key, amount integer);"
        "create table if not exists history (number integer primary key, from_id integer, to_id integer, amount integer, note text);"
        "create index if not exists by_from on history (from_id); commit");
    if (number("select count(*) from account") == 0)
        run("begin; with recursive n(i) as (select 0 union all select i + 1 from n where i < 999)"
            "insert into account select i, 1000 from n; commit");
}

int main(int count, char **words) {
    if (count < 3) return 2;
    int is_image = strcmp(words[1], "image") == 0 || strcmp(words[1], "check") == 0;
    int is_check = strncmp(words[1], "check", 5) == 0;
    int is_direct = strcmp(words[count - 1], "direct") == 0;
    msa m = MSA_INIT;
    int file = -1;
    if (is_image) {
        file = open(words[2], O_RDWR);
        if (file < 0) return 4;
        msa_status status = msa_file_open(&m, file, MSA_LOCK);
        if (status >= MSA_DAMAGE && !is_check) status = msa_file_format(&m, file, 64, MSA_LOCK);
        if (status != MSA_OK) {
            fprintf(stderr, "image: status %u\n", (unsigned)status);
            return 4;
        }
        must(msa_vfs_register(&m, sync_file, &file, "millsalder", is_direct), "register");
        must(sqlite3_open_v2("/main.db", &db, SQLITE_OPEN_READWRITE | SQLITE_OPEN_CREATE, "millsalder"), "open");
    } else {
        char path[600];
        snprintf(path, sizeof path, "%s/main.db", words[2]);
        must(sqlite3_open(path, &db), "open");
    }
    if (is_check) {
        run("pragma locking_mode=exclusive");
        sqlite3_stmt *s;
        must(sqlite3_prepare_v2(db, "pragma integrity_check", -1, &s, 0), "integrity");
        must(sqlite3_step(s), "integrity");
        printf("%s ", sqlite3_column_text(s, 0));
        sqlite3_finalize(s);
        if (number("select count(*) from sqlite_master where name = 'history'"))
            printf("%lld %lld %lld\n", number("select count(*) from history"), number("select coalesce(max(number), 0) from history"), number("select sum(amount) from account"));
        else
            printf("0 0 none\n");
    } else {
        mode(words[3]);
        make();
        long wanted = atol(words[4]);
        sqlite3_stmt *take, *give, *tell;
        must(sqlite3_prepare_v2(db, "update account set amount = amount - ?2 where id = ?1", -1, &take, 0), "take");
        must(sqlite3_prepare_v2(db, "update account set amount = amount + ?2 where id = ?1", -1, &give, 0), "give");
        must(sqlite3_prepare_v2(db, "insert into history values (?1, ?2, ?3, ?4, ?5)", -1, &tell, 0), "tell");
        long long first = number("select coalesce(max(number), 0) from history");
        unsigned seed = (unsigned)first * 2654435761u + 12345;
        msa_vfs_counts before = msa_vfs_counted();
        double begun = now();
        for (long i = 1; i <= wanted; i++) {
            seed = seed * 1103515245u + 12345u;
            int from = (int)(seed >> 8) % 1000, to = (int)(seed >> 20) % 1000, amount = (int)(seed % 97u);
            run("begin immediate");
            sqlite3_bind_int(take, 1, from), sqlite3_bind_int(take, 2, amount), must(sqlite3_step(take), "take"), sqlite3_reset(take);
            sqlite3_bind_int(give, 1, to), sqlite3_bind_int(give, 2, amount), must(sqlite3_step(give), "give"), sqlite3_reset(give);
            sqlite3_bind_int64(tell, 1, first + i), sqlite3_bind_int(tell, 2, from), sqlite3_bind_int(tell, 3, to), sqlite3_bind_int(tell, 4, amount);
            sqlite3_bind_text(tell, 5, "a line of history that says what it was for", -1, SQLITE_STATIC), must(sqlite3_step(tell), "tell"), sqlite3_reset(tell);
            run("commit");
            char line[32];
            int len = snprintf(line, sizeof line, "%lld\n", first + i);
            if (write(1, line, (size_t)len) != len) return 6;
        }
        double spent = now() - begun;
        msa_vfs_counts c = msa_vfs_counted();
        fprintf(stderr, "%ld transactions %.3f s, %.1f us each", wanted, spent, spent * 1e6 / (double)(wanted ? wanted : 1));
        if (is_image && wanted)
            fprintf(stderr, "; a transaction: %.2f writes of SQLite, %.2f syncs, %.2f calls, %.0f bytes, %.2f reads", (double)(c.writes - before.writes) / (double)wanted, (double)(c.syncs - before.syncs) / (double)wanted, (double)(c.calls - before.calls) / (double)wanted, (double)(c.bytes - before.bytes) / (double)wanted, (double)(c.reads - before.reads) / (double)wanted);
        fprintf(stderr, "\n");
        sqlite3_finalize(take), sqlite3_finalize(give), sqlite3_finalize(tell);
    }
    must(sqlite3_close(db), "close");
    if (is_image && (msa_file_sync(&m, file) != MSA_OK || msa_close(&m) != MSA_OK || close(file) != 0)) return 4;
    return 0;
}
