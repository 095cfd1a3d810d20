// The appends that a store makes in a folder, by the system's calls alone: so many bytes (91 where no length is given), a
// sync, one byte over the first of them, a sync. Prints the file's length.
#include <fcntl.h>
#include <stdio.h>
#include <stdlib.h>
#include <string.h>
#include <sys/stat.h>
#include <unistd.h>

int main(int argc, char **argv) {
    if (argc != 3 && argc != 4) return 2;
    size_t length = argc == 4 ? (size_t)atol(argv[3]) : 91;
    char path[4096];
    snprintf(path, sizeof path, "%s/store.0", argv[1]);
    int file = open(path, O_RDWR | O_CREAT, 0666);
    struct stat found;
    if (file < 0 || fstat(file, &found) != 0) return 1;
    off_t end = found.st_size;
    char record[65536], gate = 2;
    if (length > sizeof record) return 2;
    memset(record, 1, length);
    for (long left = atol(argv[2]); left > 0; left--) {
        if (pwrite(file, record, length, end) != (ssize_t)length) return 1;
        if (fdatasync(file) != 0) return 1;
        if (pwrite(file, &gate, 1, end) != 1) return 1;
        if (fdatasync(file) != 0) return 1;
        end += (off_t)length;
    }
    printf("%lld\n", (long long)end);
    return 0;
}
