/* os.c - for bench/play on another processor than x86-64: what the toolchain's crate os asks of C, whose own archive is for x86-64 alone. */
#include <errno.h>
#include <fcntl.h>
#include <stddef.h>
#include <stdint.h>
#include <string.h>
#include <sys/types.h>

static int count;
static char **words;

__attribute__((constructor)) static void keep(int words_given, char **given)
{
    count = words_given;
    words = given;
}

size_t rattle_arg_count(void) { return (size_t)count; }

ssize_t rattle_arg(size_t i, uint8_t *buf, size_t len)
{
    if (i >= (size_t)count)
        return -1;
    size_t n = strlen(words[i]);
    if (n > len)
        return -2;
    memcpy(buf, words[i], n);
    return (ssize_t)n;
}

int rattle_errno(void) { return errno; }
void rattle_set_errno(int error) { errno = error; }
int rattle_open_to_read(const char *path) { return open(path, O_RDONLY | O_CLOEXEC | O_NOCTTY); }
int rattle_open_new(const char *path, unsigned mode) { return open(path, O_WRONLY | O_CREAT | O_EXCL | O_CLOEXEC | O_NOCTTY, (mode_t)mode); }
int rattle_open_to_overwrite(const char *path, unsigned mode) { return open(path, O_WRONLY | O_CREAT | O_TRUNC | O_CLOEXEC | O_NOCTTY, (mode_t)mode); }
int rattle_open_to_append(const char *path) { return open(path, O_WRONLY | O_APPEND | O_CLOEXEC | O_NOCTTY); }
