/* Preloaded into the program gpm by tests/program: what each read of standard input does, in turn, stands in READS. `i` is
   interrupted, `f` fails, a digit reads at most so many bytes; past the last one a read does what it always does. */
#define _GNU_SOURCE
#include <dlfcn.h>
#include <errno.h>
#include <stdlib.h>
#include <unistd.h>

ssize_t read(int file, void *bytes, size_t length) {
    static size_t turn;
    ssize_t (*real)(int, void *, size_t) = (ssize_t (*)(int, void *, size_t))dlsym(RTLD_NEXT, "read");
    const char *reads = getenv("READS");
    if (file != STDIN_FILENO || reads == NULL || reads[turn] == '\0')
        return real(file, bytes, length);
    char does = reads[turn++];
    if (does == 'i' || does == 'f') {
        errno = does == 'i' ? EINTR : EIO;
        return -1;
    }
    size_t most = (size_t)(does - '0');
    return real(file, bytes, length < most ? length : most);
}
