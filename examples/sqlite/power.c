/* SQLite under power failures: power MODE TRANSACTIONS FAILURES [unsynced|early].
 *
 * Transactions run over an image in memory, and what the medium is asked is kept, line by line and sync by sync. Then the
 * power fails at a moment that is drawn: every line before the last sync is there, and of the later ones each line's writes
 * up to one that is drawn. The image is opened, and SQLite's own integrity check must say ok, each transaction that was told
 * by then is there and at most the next one, and the sum of the accounts is what it was. A medium that does not
 * keep its word makes the test fail: with 'unsynced' it leaves out the last sync before each failure, with 'early' it writes a line
 * that is asked only later. */
#include "msa_vfs.h"

#include <sqlite3.h>
#include <stdio.h>
#include <stdlib.h>
#include <string.h>

enum { PAGES = 2048, LINES = PAGES * 64 };

static msa_entry *steps;
static size_t count, room;
static sqlite3 *db;

static msa_status keep(msa *m, void *medium) {
    (void)medium;
    for (;;) {
        if (room < count + 256) steps = realloc(steps, (room = room ? 2 * room : 1 << 16) * sizeof *steps);
        size_t more = 0;
        msa_status status = msa_take(m, steps + count, 256, &more);
        if (status != MSA_OK || !more) return status;
        count += more;
    }
}

static void must(int is_right, const char *what) {
    if (is_right) return;
    fprintf(stderr, "%s: %s\n", what, db ? sqlite3_errmsg(db) : "");
    exit(1);
}

static long long number(const char *sql) {
    sqlite3_stmt *s;
    must(sqlite3_prepare_v2(db, sql, -1, &s, 0) == SQLITE_OK, sql);
    must(sqlite3_step(s) == SQLITE_ROW, sql);
    long long n = sqlite3_column_int64(s, 0);
    sqlite3_finalize(s);
    return n;
}

static void run(const char *sql) { must(sqlite3_exec(db, sql, 0, 0, 0) == SQLITE_OK, sql); }

static void start(void) {
    must(sqlite3_open_v2("/main.db", &db, SQLITE_OPEN_READWRITE | SQLITE_OPEN_CREATE, "power") == SQLITE_OK, "open");
    run("pragma locking_mode=exclusive; pragma synchronous=full; pragma temp_store=memory");
}

int main(int words_count, char **words) {
    if (words_count != 4 && words_count != 5) return 2;
    long wanted = atol(words[2]), failures = atol(words[3]);
    int is_unsynced = words_count == 5 && strcmp(words[4], "unsynced") == 0;
    int is_early = words_count == 5 && strcmp(words[4], "early") == 0;
    size_t *told = calloc((size_t)wanted + 1, sizeof *told);
    msa m = MSA_INIT;
    char sql[200];
    must(msa_format(&m, PAGES, 64) == MSA_OK && keep(&m, 0) == MSA_OK, "format");
    size_t formatted = count;
    must(msa_vfs_register(&m, keep, 0, "power", 0) == SQLITE_OK, "register");
    start();
    snprintf(sql, sizeof sql, "pragma journal_mode=%s", words[1]);
    run(sql);
    run("begin; create table account (id integer primary key, amount integer); create table history (number integer primary key, note text);"
        "with recursive n(i) as (select 0 union all select i + 1 from n where i < 999) insert into account select i, 1000 from n; commit");
    size_t made = count;
    unsigned seed = 7;
    for (long i = 1; i <= wanted; i++) {
        seed = seed * 1103515245u + 12345u;
        snprintf(sql, sizeof sql, "begin; update account set amount = amount - %u where id = %u; update account set amount = amount + %u where id = %u; insert into history values (%ld, 'a line of history'); commit", seed % 97u, (seed >> 8) % 1000u, seed % 97u, (seed >> 20) % 1000u, i);
        run(sql);
        told[i] = count;
    }
    must(sqlite3_close(db) == SQLITE_OK && keep(&m, 0) == MSA_OK && msa_close(&m) == MSA_OK, "close");
    uint8_t *image = malloc((size_t)PAGES * MSA_PAGE);
    size_t *last = malloc(LINES * sizeof *last);
    long between = 0, next = 0, before = 0;
    size_t all = count;
    msa_entry *kept = steps;
    srand(1);
    for (long f = 0; f < failures; f++) {
        size_t at = formatted + (size_t)((double)rand() / ((double)RAND_MAX + 1) * (double)(all - formatted + 1)), synced = at;
        while (synced && !kept[synced - 1].is_sync) synced--;
        if (is_unsynced && synced) {
            synced--;
            while (synced && !kept[synced - 1].is_sync) synced--;
        }
        memset(image, 0, (size_t)PAGES * MSA_PAGE);
        memset(last, 0, LINES * sizeof *last); /* lines whose writes end */
        for (size_t i = 0; i < at; i++) {
            uint64_t line = kept[i].line;
            if (kept[i].is_sync) continue;
            if (i >= synced && (last[line] || rand() % 3 == 0)) {
                last[line] = 1;
                continue;
            }
            memcpy(image + 64 * line, kept[i].words, 64);
        }
        size_t later = at + 1 + (size_t)(rand() % 64);
        if (is_early && later < all && !kept[later].is_sync) memcpy(image + 64 * kept[later].line, kept[later].words, 64);
        long least = 0;
        while (least < wanted && told[least + 1] <= at) least++;
        msa again = MSA_INIT;
        msa_status status = msa_open(&again, image, (size_t)PAGES * MSA_PAGE);
        if (status != MSA_OK) {
            fprintf(stderr, "failure %ld at step %zu: status %u\n", f, at, (unsigned)status);
            return 1;
        }
        must(msa_vfs_register(&again, keep, 0, "power", 0) == SQLITE_OK, "register");
        count = room = 0, steps = 0; /* what the recovery asks is let go: it is tried again from the image at the next failure */
        start();
        sqlite3_stmt *s;
        must(sqlite3_prepare_v2(db, "pragma integrity_check", -1, &s, 0) == SQLITE_OK && sqlite3_step(s) == SQLITE_ROW, "integrity");
        must(strcmp((const char *)sqlite3_column_text(s, 0), "ok") == 0, "integrity");
        sqlite3_finalize(s);
        if (number("select count(*) from sqlite_master where name = 'history'")) {
            long long lines = number("select count(*) from history"), highest = number("select coalesce(max(number), 0) from history");
            must(lines == highest && lines >= least && lines <= least + 1, "transactions");
            must(number("select sum(amount) from account") == 1000000, "sum");
            if (lines == least) before++;
            else next++;
        } else {
            must(at < made && least == 0, "tables");
        }
        if (at != synced) between++;
        must(sqlite3_close(db) == SQLITE_OK && msa_close(&again) == MSA_OK, "close");
        free(steps);
    }
    printf("%s: %ld transactions, %zu lines and syncs; %ld failures, %ld of them between syncs: %ld with what was told, %ld with the next too\n", words[1], wanted, all, failures, between, before, next);
    return 0;
}
