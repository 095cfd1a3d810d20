// The text of a world of so many objects of 14 bytes each, by fprintf into memory. Prints the nanoseconds of the writing.
#include <stdio.h>
#include <stdlib.h>
#include <time.h>

int main(int argc, char **argv) {
    unsigned objects = argc > 1 ? strtoul(argv[1], 0, 10) : 100000;
    const char *bytes = "a shiny sword.";
    char *text; size_t length;
    struct timespec start, end;
    clock_gettime(CLOCK_MONOTONIC, &start);
    FILE *out = open_memstream(&text, &length);
    fprintf(out, "{\"commits\":%llu,\"game\":\"%s\",\"last_run\":%llu,\"names\":[],\"objects\":[", 1ull, "sword-world", 0ull);
    for (unsigned k = 0; k < objects; k++) {
        fprintf(out, "%s[\"%llu.%u\",%u,\"", k ? "," : "", 0ull, k, 2u);
        for (int i = 0; i < 14; i++) fprintf(out, "%02x", (unsigned char)bytes[i]);
        fprintf(out, "\"]");
    }
    fprintf(out, "],\"tasks\":[]}\n");
    fclose(out);
    clock_gettime(CLOCK_MONOTONIC, &end);
    if (length == 0) return 1;
    printf("%lld\n", (end.tv_sec - start.tv_sec) * 1000000000ll + end.tv_nsec - start.tv_nsec);
    free(text);
    return 0;
}
