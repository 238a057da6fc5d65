/* Makes an image in a file, writes into it and reads it back: notes IMAGE. ctsh reads what it leaves. With 'read' behind it the
 * image is there already, and is only read: notes IMAGE read. */
#include "millsalder_file.h"

#include <fcntl.h>
#include <stdio.h>
#include <string.h>
#include <unistd.h>

#define PATH(text) (const uint8_t *)(text), strlen(text)
#define BYTES(text) (const uint8_t *)(text), strlen(text)

/* Ends the program where a call did not answer what was wanted. */
static int want(const char *call, msa_status wanted, msa_status status) {
    if (status == wanted) return 0;
    fprintf(stderr, "%s: status %u\n", call, (unsigned)status);
    return 1;
}

static int write_notes(int file) {
    msa m = MSA_INIT;
    return want("format", MSA_OK, msa_file_format(&m, file, 64, MSA_LOCK)) ||
        want("mkdir", MSA_OK, msa_mkdir(&m, PATH("/home"))) ||
        want("create", MSA_OK, msa_create(&m, PATH("/home/notes.txt"))) ||
        want("create again", MSA_EXISTS, msa_create(&m, PATH("/home/notes.txt"))) ||
        want("append", MSA_OK, msa_append(&m, PATH("/home/notes.txt"), BYTES("hello\n"))) ||
        want("write", MSA_OK, msa_write(&m, PATH("/home/notes.txt"), 6, BYTES("world\n"))) ||
        want("sync", MSA_OK, msa_file_sync(&m, file)) ||
        want("open twice", MSA_BUSY, msa_file_open(&m, file, 0)) ||
        want("close", MSA_OK, msa_close(&m)) ||
        want("close again", MSA_CLOSED, msa_close(&m)) ||
        want("create closed", MSA_CLOSED, msa_create(&m, PATH("/x")));
}

static int read_notes(int file) {
    msa m = MSA_INIT;
    msa_told told;
    uint8_t bytes[64];
    uint64_t read = 0;
    if (want("open", MSA_OK, msa_file_open(&m, file, MSA_LOCK)) ||
        want("stat", MSA_OK, msa_stat(&m, PATH("/home/notes.txt"), &told)) ||
        want("read", MSA_OK, msa_read(&m, PATH("/home/notes.txt"), 0, bytes, sizeof bytes, &read)) ||
        want("read too", MSA_NOT_FOUND, msa_read(&m, PATH("/nowhere"), 0, bytes, sizeof bytes, &read)) ||
        want("close", MSA_OK, msa_close(&m)))
        return 1;
    if (told.is_directory || told.size != 12 || read != 12) return 1;
    fwrite(bytes, 1, read, stdout);
    return 0;
}

int main(int count, char **words) {
    int is_read = count == 3 && strcmp(words[2], "read") == 0;
    if (count != 2 && !is_read) return 2;
    int file = open(words[1], is_read ? O_RDWR : O_RDWR | O_CREAT, 0666);
    if (file < 0) return 4;
    if (!is_read && (ftruncate(file, 4 << 20) != 0 || write_notes(file))) return 1;
    return read_notes(file) || close(file) != 0;
}
