/* A read of standard input and a write to standard output that fail as asked, in a program that is
 * started with this library in LD_PRELOAD. READS and WRITES have a letter for each call: 'i' a
 * signal interrupts it, 'e' it fails, '0' it moves no byte, '1' it moves one byte at most. Any
 * other letter, and every call after the last letter, is the call as it is. */
#define _GNU_SOURCE
#include <errno.h>
#include <stdlib.h>
#include <string.h>
#include <sys/syscall.h>
#include <sys/types.h>
#include <unistd.h>

/* The letter of the next call. */
static char next(const char *letters, size_t *calls) {
    return letters != NULL && *calls < strlen(letters) ? letters[(*calls)++] : 'a';
}

static ssize_t moved(char letter, long call, int fd, const void *bytes, size_t n) {
    if (letter == 'i' || letter == 'e') {
        errno = letter == 'i' ? EINTR : EIO;
        return -1;
    }
    if (letter == '0')
        return 0;
    return syscall(call, fd, bytes, letter == '1' && n > 1 ? 1 : n);
}

ssize_t read(int fd, void *bytes, size_t n) {
    static size_t calls = 0;
    char letter = fd == STDIN_FILENO ? next(getenv("READS"), &calls) : 'a';
    return moved(letter, SYS_read, fd, bytes, n);
}

ssize_t write(int fd, const void *bytes, size_t n) {
    static size_t calls = 0;
    char letter = fd == STDOUT_FILENO ? next(getenv("WRITES"), &calls) : 'a';
    return moved(letter, SYS_write, fd, bytes, n);
}
