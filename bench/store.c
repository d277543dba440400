/*
 * What bench/store.sh measures the store against.
 *
 *   pairs FOLDER COUNT BLOCK ENTRY   makes two files in a folder. So many times it writes BLOCK bytes behind the first
 *                                    and syncs it, and then ENTRY bytes behind the second and syncs that. It prints the
 *                                    nanoseconds of these. The second file starts as a change file does: with the frame
 *                                    of a new store's header, and its entries behind the slots.
 *   entries FILE                     prints how many entries a change file has, and the bytes of their frames.
 *
 * The change file is in docs/FORMATS.md.
 */
#define _GNU_SOURCE
#include <fcntl.h>
#include <stdint.h>
#include <stdio.h>
#include <stdlib.h>
#include <string.h>
#include <time.h>
#include <unistd.h>

enum { HEADER_FRAME_BYTES = 164, ENTRIES_AT = 8192, FRAME_HEAD_BYTES = 32 };

static void fail(const char *what) {
    perror(what);
    exit(1);
}

static uint64_t now(void) {
    struct timespec time;
    clock_gettime(CLOCK_MONOTONIC, &time);
    return (uint64_t)time.tv_sec * 1000000000 + time.tv_nsec;
}

/* Bytes of which no write of a file is like the one before, and none is a row of zeros. */
static unsigned char *make_bytes(size_t count) {
    unsigned char *bytes = malloc(count + 8);
    if (!bytes)
        fail("malloc");
    uint64_t state = 88172645463325252;
    for (size_t i = 0; i < count; i++) {
        state ^= state << 13;
        state ^= state >> 7;
        state ^= state << 17;
        bytes[i] = state;
    }
    return bytes;
}

static int make_file(const char *folder, const char *name) {
    char path[4096];
    snprintf(path, sizeof path, "%s/%s", folder, name);
    int file = open(path, O_RDWR | O_CREAT | O_TRUNC, 0644);
    if (file < 0)
        fail(path);
    return file;
}

/* Writes all bytes at a place of a file, and syncs it. */
static void store(int file, const unsigned char *bytes, size_t count, off_t at) {
    for (size_t done = 0; done < count;) {
        ssize_t n = pwrite(file, bytes + done, count - done, at + done);
        if (n < 0)
            fail("write");
        done += n;
    }
    if (fdatasync(file))
        fail("sync");
}

static void pairs(const char *folder, uint64_t count, size_t block, size_t entry) {
    unsigned char *block_bytes = make_bytes(block), *entry_bytes = make_bytes(entry);
    unsigned char *header = make_bytes(HEADER_FRAME_BYTES);
    int blocks = make_file(folder, "pairs-blocks"), oplog = make_file(folder, "pairs-oplog");
    store(oplog, header, HEADER_FRAME_BYTES, 0);
    uint64_t spent = 0;
    for (uint64_t i = 0; i < count; i++) {
        memcpy(block_bytes, &i, block < 8 ? block : 8);
        memcpy(entry_bytes, &i, entry < 8 ? entry : 8);
        uint64_t start = now();
        store(blocks, block_bytes, block, i * block);
        store(oplog, entry_bytes, entry, ENTRIES_AT + i * entry);
        spent += now() - start;
    }
    printf("%llu\n", (unsigned long long)spent);
}

/* The frame's head begins with the payload's length, of four bytes, low byte first. */
static void entries(const char *path) {
    unsigned char head[FRAME_HEAD_BYTES];
    uint64_t count = 0;
    off_t at = ENTRIES_AT;
    int oplog = open(path, O_RDONLY);
    if (oplog < 0)
        fail(path);
    while (pread(oplog, head, sizeof head, at) == sizeof head) {
        at += sizeof head + (head[0] | head[1] << 8 | head[2] << 16 | (off_t)head[3] << 24);
        count++;
    }
    printf("%llu %llu\n", (unsigned long long)count, (unsigned long long)(at - ENTRIES_AT));
}

int main(int count, char **words) {
    if (count == 6 && !strcmp(words[1], "pairs"))
        pairs(words[2], strtoull(words[3], 0, 10), strtoull(words[4], 0, 10), strtoull(words[5], 0, 10));
    else if (count == 3 && !strcmp(words[1], "entries"))
        entries(words[2]);
    else
        return 2;
    return 0;
}
