// The calls of a run's images, and the reading of a chain, in plain C.
//   job images DIR N   appends N records of 1,048,709 bytes to DIR/image1, as a run does at its checkpoints
//   job read DIR       reads DIR/image1 whole, a record's piece at a time
#include <fcntl.h>
#include <stdint.h>
#include <stdio.h>
#include <stdlib.h>
#include <string.h>
#include <sys/stat.h>
#include <unistd.h>

enum { HEADER = 16, RECORD = 1048709, PIECE = 4096 };

static const unsigned char header[HEADER] = {'C', 'K', 'P', '1', 0, 0, 0, 1, 0, 0, 0, 1, 0, 64, 0, 0};
static unsigned char memory[RECORD], record[RECORD];

static void fail(const char *what) {
    perror(what);
    exit(1);
}

static int file_in(const char *folder, const char *name, int flags) {
    char path[4096];
    snprintf(path, sizeof path, "%s/%s", folder, name);
    int file = open(path, flags, 0644);
    if (file < 0) fail(path);
    return file;
}

static void write_at(int file, const unsigned char *bytes, size_t n, off_t at) {
    if (pwrite(file, bytes, n, at) != (ssize_t)n) fail("pwrite");
}

static void sync_file(int file) {
    if (fsync(file)) fail("fsync");
}

// One image: its record is made from the memory, then written in pieces, synced, and its gate opened and synced.
static void append(int file, off_t at, int number) {
    static const unsigned char gate = 0xA5;
    memcpy(record, memory, RECORD);
    record[RECORD - 1] = (unsigned char)number;
    for (size_t done = 0; done < RECORD; done += PIECE) write_at(file, record + done, RECORD - done < PIECE ? RECORD - done : PIECE, at + 1 + done);
    sync_file(file);
    write_at(file, &gate, 1, at);
    sync_file(file);
}

static void images(const char *folder, int count) {
    mkdir(folder, 0755);
    int file = file_in(folder, "image1", O_RDWR | O_CREAT | O_TRUNC);
    write_at(file, header, HEADER, 0);
    sync_file(file);
    for (int k = 0; k < count; k++) append(file, HEADER + (off_t)k * (RECORD + 1), k);
}

static void read_all(const char *folder) {
    int file = file_in(folder, "image1", O_RDONLY);
    unsigned long sum = 0;
    ssize_t n;
    while ((n = read(file, record, RECORD)) > 0)
        for (ssize_t i = 0; i < n; i += 64) sum += record[i];
    if (n < 0) fail("read");
    printf("%lu\n", sum);
}

int main(int argc, char **argv) {
    memset(memory, 7, sizeof memory);
    if (argc == 4 && !strcmp(argv[1], "images")) images(argv[2], atoi(argv[3]));
    else if (argc == 3 && !strcmp(argv[1], "read")) read_all(argv[2]);
    else return 2;
    return 0;
}
