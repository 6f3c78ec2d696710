/* A read that gives a part. Of a file that is longer than the number in the variable READABLE, the bytes after so many cannot be
   read, and no call gives more bytes than the number in the variable PIECE. */
#define _GNU_SOURCE
#include <errno.h>
#include <stdlib.h>
#include <sys/stat.h>
#include <sys/syscall.h>
#include <unistd.h>

/* A variable's number, or the largest if it is not set. */
static off_t number(const char *name)
{
    const char *text = getenv(name);
    return text == NULL ? (off_t)((~0ULL) >> 1) : (off_t)strtoll(text, NULL, 10);
}

ssize_t read(int descriptor, void *buffer, size_t size)
{
    off_t readable = number("READABLE");
    off_t most = number("PIECE");
    off_t at = lseek(descriptor, 0, SEEK_CUR);
    struct stat file;
    if (fstat(descriptor, &file) == 0 && file.st_size > readable) {
        if (at >= readable) {
            errno = EIO;
            return -1;
        }
        if (most > readable - at) {
            most = readable - at;
        }
    }
    if ((off_t)size > most) {
        size = (size_t)most;
    }
    return syscall(SYS_read, descriptor, buffer, size);
}
