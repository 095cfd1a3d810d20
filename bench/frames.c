// A stream of 64 MiB of frames of so many bytes each, whose lengths are walked from the first to the last. Prints the nanoseconds of the walk.
#include <stdint.h>
#include <stdio.h>
#include <stdlib.h>
#include <string.h>
#include <time.h>

int main(int argc, char **argv) {
    uint32_t bytes = argc > 1 ? strtoul(argv[1], 0, 10) : 64;
    if (bytes < 5) return 1;
    uint32_t messages = (1u << 26) / bytes, length = bytes - 4;
    size_t total = (size_t)messages * bytes, at = 0, frames = 0;
    unsigned char *stream = malloc(total);
    if (!stream) return 1;
    memset(stream, 'x', total);
    for (size_t k = 0; k < messages; k++) {
        unsigned char *frame = stream + k * bytes;
        frame[0] = length >> 24, frame[1] = length >> 16, frame[2] = length >> 8, frame[3] = length;
        frame[4] = 2;
    }
    struct timespec start, end;
    clock_gettime(CLOCK_MONOTONIC, &start);
    while (total - at >= 4) {
        uint32_t stated = (uint32_t)stream[at] << 24 | stream[at + 1] << 16 | stream[at + 2] << 8 | stream[at + 3];
        if (stated == 0 || stated > total - at - 4) break;
        at += 4 + (size_t)stated;
        frames++;
    }
    clock_gettime(CLOCK_MONOTONIC, &end);
    if (frames != messages) return 1;
    printf("%lld\n", (end.tv_sec - start.tv_sec) * 1000000000ll + end.tv_nsec - start.tv_nsec);
    free(stream);
    return 0;
}
