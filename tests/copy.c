/* Reads a file into memory, copies it there once, writes the copy to a new file and syncs that: what loading and saving an
 * image is measured by. */
#include <fcntl.h>
#include <stdlib.h>
#include <string.h>
#include <sys/stat.h>
#include <unistd.h>

int main(int count, char **words)
{
    struct stat stat;
    int from = count == 3 ? open(words[1], O_RDONLY) : -1;
    int to = count == 3 ? open(words[2], O_WRONLY | O_CREAT | O_TRUNC, 0644) : -1;
    if (from < 0 || to < 0 || fstat(from, &stat) != 0)
        return 1;
    size_t size = (size_t)stat.st_size;
    char *first = malloc(size), *second = malloc(size);
    if (!first || !second)
        return 1;
    for (size_t at = 0; at < size;) {
        ssize_t done = read(from, first + at, size - at);
        if (done <= 0)
            return 1;
        at += (size_t)done;
    }
    memcpy(second, first, size);
    for (size_t at = 0; at < size;) {
        ssize_t done = write(to, second + at, size - at);
        if (done <= 0)
            return 1;
        at += (size_t)done;
    }
    return fsync(to) == 0 && close(to) == 0 ? 0 : 1;
}
