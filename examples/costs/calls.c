/* Makes the system calls that its standard input lists, one a line, in the current folder: what a program in C would take for the same
   reads, writes and syncs of files. Numbers of files are those of the list, below 4,096. */
#include <fcntl.h>
#include <stdio.h>
#include <stdlib.h>
#include <string.h>
#include <sys/stat.h>
#include <unistd.h>

static char buffer[64 << 20];

int main(void)
{
    static int files[4096];
    char line[8192], path[4096];
    long file, size, place, flags, result;

    memset(buffer, 'x', sizeof buffer);
    while (fgets(line, sizeof line, stdin)) {
        result = 0;
        if (sscanf(line, "open %ld %ld %4095[^\n]", &file, &flags, path) == 3)
            result = files[file] = open(path, (int)flags, 0666);
        else if (sscanf(line, "mkdir %4095[^\n]", path) == 1)
            result = mkdir(path, 0777);
        else if (sscanf(line, "unlink %4095[^\n]", path) == 1)
            result = unlink(path);
        else if (sscanf(line, "pwrite %ld %ld %ld", &file, &size, &place) == 3)
            result = pwrite(files[file], buffer, size, place);
        else if (sscanf(line, "pread %ld %ld %ld", &file, &size, &place) == 3)
            result = pread(files[file], buffer, size, place);
        else if (sscanf(line, "read %ld %ld", &file, &size) == 2)
            result = read(files[file], buffer, size);
        else if (sscanf(line, "cut %ld %ld", &file, &size) == 2)
            result = ftruncate(files[file], size);
        else if (sscanf(line, "sync %ld", &file) == 1)
            result = fsync(files[file]);
        else if (sscanf(line, "datasync %ld", &file) == 1)
            result = fdatasync(files[file]);
        else if (sscanf(line, "close %ld", &file) == 1)
            result = close(files[file]);
        else
            result = -1;
        if (result < 0) {
            fprintf(stderr, "not done: %s", line);
            return 1;
        }
    }
    return 0;
}
