// The calls of an append and of a reading in plain C, and the store that is opened.
//   chain store DIR   makes DIR/image1 with 16 records of 1,048,709 bytes
//   chain append DIR  times 50 appends of such a record, in microseconds each
//   chain read DIR    times 50 readings of DIR/image1, a record at a time
#include <fcntl.h>
#include <stdint.h>
#include <stdio.h>
#include <stdlib.h>
#include <string.h>
#include <sys/stat.h>
#include <time.h>
#include <unistd.h>

enum { HEADER = 16, RECORD = 1048709, PIECE = 4096, RECORDS = 16 };

static const unsigned char header[HEADER] = {'C', 'K', 'P', '1', 0, 0, 0, 1, 0, 0, 0, 1, 0, 16, 0, 0};
static unsigned char record[RECORD];

static void fail(const char *what) {
    perror(what);
    exit(1);
}

static void put(unsigned char *at, uint64_t n, int bytes) {
    for (int i = 0; i < bytes; i++) at[i] = (unsigned char)(n >> (8 * (bytes - 1 - i)));
}

// Image `number` of 131,072 cells in three runs, with a word of its own in each cell.
static void make_record(uint32_t number) {
    static const uint32_t first[3] = {0, 50000, 100000}, count[3] = {43690, 43691, 43691};
    unsigned char *at = record + 108;
    record[0] = 'I';
    put(record + 1, RECORD, 4);
    memset(record + 5, 0x11, 32);
    memset(record + 37, 0x22, 32);
    put(record + 69, 7, 4);
    put(record + 73, 7 + number, 8);
    memset(record + 81, 0, 19);
    put(record + 100, number, 4);
    put(record + 104, 3, 4);
    for (int r = 0; r < 3; r++) {
        put(at, first[r], 4);
        put(at + 4, count[r], 4);
        at += 8;
        for (uint32_t i = 0; i < count[r]; i++, at += 8) put(at, (uint64_t)number << 32 | i, 8);
    }
    *at = 0;
}

static void write_all(int file, const unsigned char *bytes, size_t n, off_t at) {
    while (n > 0) {
        ssize_t done = pwrite(file, bytes, n, at);
        if (done < 0) fail("pwrite");
        bytes += done;
        n -= (size_t)done;
        at += done;
    }
}

static long micros(void) {
    struct timespec t;
    clock_gettime(CLOCK_MONOTONIC, &t);
    return t.tv_sec * 1000000L + t.tv_nsec / 1000;
}

static void sync_file(int file) {
    if (fsync(file) < 0) fail("fsync");
}

static int start_file(int dir) {
    int file = openat(dir, "image1.new", O_RDWR | O_CREAT | O_TRUNC, 0666);
    if (file < 0) fail("image1.new");
    write_all(file, header, HEADER, 0);
    sync_file(file);
    if (renameat(dir, "image1.new", dir, "image1") < 0) fail("rename");
    sync_file(dir);
    return file;
}

static void append(int file, off_t gate) {
    static const unsigned char open_gate = 0xA5;
    for (int from = 0; from < RECORD; from += PIECE)
        write_all(file, record + from, RECORD - from < PIECE ? RECORD - from : PIECE, gate + 1 + from);
    sync_file(file);
    write_all(file, &open_gate, 1, gate);
    sync_file(file);
}

static void time_appends(int dir) {
    make_record(1);
    for (int i = 0; i < 50; i++) {
        int file = start_file(dir);
        long start = micros();
        append(file, HEADER - 1);
        printf("C append %ld\n", micros() - start);
        close(file);
    }
}

static void make_store(int dir) {
    int file = start_file(dir);
    for (uint32_t i = 0; i < RECORDS; i++) {
        make_record(i + 1);
        append(file, HEADER - 1 + (off_t)i * RECORD);
    }
    close(file);
}

static void time_readings(int dir) {
    int file = openat(dir, "image1", O_RDONLY);
    if (file < 0) fail("image1");
    for (int i = 0; i < 50; i++) {
        long start = micros();
        off_t at = HEADER;
        ssize_t n;
        while ((n = pread(file, record, RECORD, at)) > 0) at += n;
        if (n < 0) fail("pread");
        printf("C read %ld bytes %ld\n", micros() - start, (long)at);
    }
    close(file);
}

int main(int count, char **words) {
    if (count != 3) return 2;
    mkdir(words[2], 0777);
    int dir = open(words[2], O_RDONLY | O_DIRECTORY);
    if (dir < 0) fail(words[2]);
    if (strcmp(words[1], "append") == 0) time_appends(dir);
    else if (strcmp(words[1], "store") == 0) make_store(dir);
    else time_readings(dir);
    return 0;
}
