/* The disk calls and exclusive-ors of a put into a pool of 16 slots of a megabyte, without its digests: the yardstick of bench/pool.py.
   pool_calls STORE: the pool is file 1 or 2 of the store, whichever is current; the other is written. */
#include <fcntl.h>
#include <stdint.h>
#include <stdio.h>
#include <stdlib.h>
#include <string.h>
#include <unistd.h>

enum { JOBS = 16, SIZE = 1 << 20, ENTRY = 36, PIECE = 4096 };

static unsigned char slot[SIZE], parity[SIZE], file_bytes[PIECE];
static size_t held;
static off_t at = 16;

static int open_in(const char *store, const char *name) {
    char path[4096];
    snprintf(path, sizeof path, "%s/%s", store, name);
    return open(path, O_RDWR | O_CREAT, 0644);
}

static void push(int fd, const unsigned char *bytes, size_t n) {
    while (n > 0) {
        size_t taken = PIECE - held < n ? PIECE - held : n;
        memcpy(file_bytes + held, bytes, taken);
        held += taken, bytes += taken, n -= taken;
        if (held == PIECE) {
            if (pwrite(fd, file_bytes, held, at) != (ssize_t)held) exit(2);
            at += held, held = 0;
        }
    }
}

static void read_slot(int fd, int i) {
    if (pread(fd, slot, SIZE, 16 + (JOBS + 1) * ENTRY + (off_t)i * SIZE) != SIZE) exit(2);
}

int main(int count, char **words) {
    int old = open_in(words[1], words[2]), new = open_in(words[1], words[3]);
    unsigned char entry[ENTRY], header[16] = "CKPX", gate = 165;
    fdatasync(old), fdatasync(new);
    for (int i = 0; i <= JOBS; i++) read_slot(old, i);
    for (int i = 0; i < JOBS; i++) {
        read_slot(old, i);
        uint64_t *to = (uint64_t *)parity, *from = (uint64_t *)slot;
        for (int k = 0; k < SIZE / 8; k++) to[k] ^= from[k];
    }
    ftruncate(new, 0);
    pwrite(new, header, 16, 0);
    for (int i = 0; i <= JOBS; i++) {
        if (pread(old, entry, ENTRY, 16 + i * ENTRY) != ENTRY) exit(2);
        push(new, entry, ENTRY);
    }
    for (int i = 0; i < JOBS; i++) {
        read_slot(old, i);
        push(new, slot, SIZE);
    }
    push(new, parity, SIZE);
    if (held > 0 && pwrite(new, file_bytes, held, at) != (ssize_t)held) exit(2);
    fdatasync(new);
    pwrite(new, &gate, 1, 15);
    fdatasync(new);
    return 0;
}
