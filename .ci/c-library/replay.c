/* Makes the calls of a script on an image, and ships what they ask to its file: replay IMAGE. A line of standard input is a call of
 * the script; its answer in words is told once the file has seen it, and no lock is held, so that another program may look. Looks
 * are passed over. */
#include "millsalder_file.h"

#include <fcntl.h>
#include <stdio.h>
#include <stdlib.h>
#include <string.h>

struct bytes {
    uint8_t at[1 << 16];
    size_t len;
};

static int digit(int c) { return c <= '9' ? c - '0' : (c | 32) - 'a' + 10; }

/* A path, in which a byte may stand as a percent sign and two digits. */
static struct bytes *path(const char *word) {
    struct bytes *b = calloc(1, sizeof *b);
    for (; word && *word; word++) {
        int is_escaped = *word == '%';
        b->at[b->len++] = (uint8_t)(is_escaped ? 16 * digit(word[1]) + digit(word[2]) : *word);
        word += 2 * is_escaped;
    }
    return b;
}

static struct bytes *hex(const char *word) {
    struct bytes *b = calloc(1, sizeof *b);
    for (; word && word[0] && word[1]; word += 2) b->at[b->len++] = (uint8_t)(16 * digit(word[0]) + digit(word[1]));
    return b;
}

static uint64_t number(const char *word) { return word ? strtoull(word, 0, 10) : 0; }

static int call(msa *m, char **w, int count, msa_status *answer) {
    struct bytes *p = path(w[1]), *other = path(count > 2 ? w[2] : 0);
    if (!strcmp(w[0], "create")) *answer = msa_create(m, p->at, p->len);
    else if (!strcmp(w[0], "mkdir")) *answer = msa_mkdir(m, p->at, p->len);
    else if (!strcmp(w[0], "unlink")) *answer = msa_unlink(m, p->at, p->len);
    else if (!strcmp(w[0], "rmdir")) *answer = msa_rmdir(m, p->at, p->len);
    else if (!strcmp(w[0], "rename")) *answer = msa_rename(m, p->at, p->len, other->at, other->len);
    else if (!strcmp(w[0], "truncate")) *answer = msa_truncate(m, p->at, p->len, number(w[2]));
    else if (!strcmp(w[0], "fill")) *answer = msa_fill(m, p->at, p->len, number(w[2]), number(w[3]), (uint8_t)number(w[4]));
    else if (!strcmp(w[0], "append")) {
        struct bytes *data = hex(w[2]);
        *answer = msa_append(m, p->at, p->len, data->at, data->len);
    } else if (!strcmp(w[0], "write")) {
        struct bytes *data = hex(w[3]);
        *answer = msa_write(m, p->at, p->len, number(w[2]), data->at, data->len);
    } else if (!strcmp(w[0], "exchange")) {
        struct bytes *to = path(w[3]);
        *answer = msa_exchange(m, p->at, p->len, number(w[2]), to->at, to->len, number(w[4]), number(w[5]));
    } else return 0;
    return 1;
}

int main(int words, char **names) {
    static char line[1 << 17];
    msa m = MSA_INIT;
    int file = words == 2 ? open(names[1], O_RDWR) : -1;
    if (file < 0 || msa_file_open(&m, file, 0) != MSA_OK) return 2;
    while (fgets(line, sizeof line, stdin)) {
        char *w[8] = {0};
        int count = 0;
        for (char *word = strtok(line, " \n"); word && count < 7; word = strtok(0, " \n")) w[count++] = word;
        msa_status answer = MSA_OK;
        uint8_t text[80];
        if (!count || !call(&m, w, count, &answer)) {
            puts("passed over");
        } else {
            if (msa_file_sync(&m, file) != MSA_OK) return 3;
            printf("%.*s\n", (int)msa_text(answer, text, sizeof text), (char *)text);
        }
        fflush(stdout);
    }
    return msa_close(&m) != MSA_OK || close(file) != 0;
}
