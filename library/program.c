/* program.c: the C calls of a statically linked uimg: its arguments, its environment, errno,
   directories, and memory over malloc. The kit declares them in rattle/os/src/c.rt and
   rattle/libc/src/heap.rt. */
#define _POSIX_C_SOURCE 200809L

#include "malloc.c"

#include <errno.h>
#include <fcntl.h>
#include <string.h>

extern char **environ;

static size_t count;
static char **words;

/* The C library of GNU passes the arguments of main to a constructor. */
__attribute__((constructor)) static void keep_arguments(int argc, char **argv)
{
    count = argc > 0 ? (size_t)argc : 0;
    words = argv;
}

/* Copies a text without its NUL, as far as there is room. Returns its length, -1 if there is no
   text, or -2 if it is longer than the room. */
static ptrdiff_t copy_text(const char *text, uint8_t *to, size_t room)
{
    size_t length;

    if (!text)
        return -1;
    length = strlen(text);
    if (length > room) {
        memcpy(to, text, room);
        return -2;
    }
    memcpy(to, text, length);
    return (ptrdiff_t)length;
}

/* Copies an argument. */
ptrdiff_t rattle_arg(size_t i, uint8_t *to, size_t room)
{
    return copy_text(i < count ? words[i] : NULL, to, room);
}

/* Copies the value of an environment variable. The name ends with a NUL. */
ptrdiff_t rattle_env(const uint8_t *name, uint8_t *to, size_t room)
{
    return copy_text(getenv((const char *)name), to, room);
}

/* Copies an entry of the environment, a name, `=` and a value. */
ptrdiff_t rattle_env_at(size_t i, uint8_t *to, size_t room)
{
    size_t entries = 0;

    while (environ && environ[entries] && entries <= i)
        entries++;
    return copy_text(i < entries ? environ[i] : NULL, to, room);
}

int32_t rattle_errno(void)
{
    return errno;
}

void rattle_set_errno(int32_t error)
{
    errno = error;
}

/* Opens the directory that a name reaches from another directory, to read it. The name ends with a
   NUL. Returns a descriptor, or -1, also for a symbolic link and for what is no directory. */
int32_t rattle_open_dir_at(int32_t directory, const uint8_t *name)
{
    return openat(directory, (const char *)name, O_RDONLY | O_DIRECTORY | O_NOFOLLOW | O_CLOEXEC);
}
