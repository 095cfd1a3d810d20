// Reads a store's file whole and walks its records: from the gate at 64 on, an open gate, four bytes of length, big-endian, and
// so many bytes of payload, up to a closed gate. Prints the nanoseconds of both together; fails where the records are not as many
// as are asked for.
#include <fcntl.h>
#include <stdint.h>
#include <stdio.h>
#include <stdlib.h>
#include <sys/stat.h>
#include <time.h>
#include <unistd.h>

// How many records there are, or -1 where one is cut off.
static long walk(const unsigned char *bytes, size_t end) {
    long records = 0;
    size_t at = 64;
    while (at < end && bytes[at] == 1) {
        if (end - at < 6) return -1;
        const unsigned char *field = bytes + at + 1;
        uint32_t length = (uint32_t)field[0] << 24 | (uint32_t)field[1] << 16 | (uint32_t)field[2] << 8 | field[3];
        if (end - at - 6 < length) return -1;
        at += 5 + (size_t)length;
        records++;
    }
    return records;
}

// The records of the file, or -1 where it can not be read.
static long count(const char *path) {
    int file = open(path, O_RDONLY);
    struct stat found;
    if (file < 0 || fstat(file, &found) != 0) return -1;
    size_t end = (size_t)found.st_size, got = 0;
    unsigned char *bytes = malloc(end);
    if (bytes == NULL) return -1;
    while (got < end) {
        ssize_t more = read(file, bytes + got, end - got);
        if (more <= 0) return -1;
        got += (size_t)more;
    }
    long records = walk(bytes, end);
    free(bytes);
    close(file);
    return records;
}

int main(int argc, char **argv) {
    if (argc != 3) return 2;
    struct timespec start, end;
    clock_gettime(CLOCK_MONOTONIC, &start);
    long records = count(argv[1]);
    clock_gettime(CLOCK_MONOTONIC, &end);
    if (records != atol(argv[2])) return 1;
    printf("%lld\n", (long long)(end.tv_sec - start.tv_sec) * 1000000000 + (end.tv_nsec - start.tv_nsec));
    return 0;
}
