/* program_test.c: tests the calls of program.c by the arguments and the environment of main.
   program_test [exec | memory]: with exec it runs itself with an empty list of arguments, to which
   Linux since 5.18 adds an empty one; with memory, under a limit of the address space, allocations
   beyond it have to be refused. */
#define _POSIX_C_SOURCE 200809L

#include <errno.h>
#include <fcntl.h>
#include <stddef.h>
#include <stdint.h>
#include <stdio.h>
#include <stdlib.h>
#include <string.h>
#include <unistd.h>

struct memory {
    uint8_t is_there;
    void *start;
};

ptrdiff_t rattle_arg(size_t i, uint8_t *to, size_t room);
ptrdiff_t rattle_env(const uint8_t *name, uint8_t *to, size_t room);
ptrdiff_t rattle_env_at(size_t i, uint8_t *to, size_t room);
int32_t rattle_errno(void);
void rattle_set_errno(int32_t error);
struct memory rattle_alloc(size_t size, size_t alignment);
struct memory rattle_realloc(void *start, size_t kept, size_t size, size_t alignment);
void rattle_dealloc(void *start);
int32_t rattle_open_dir_at(int32_t directory, const uint8_t *name);

extern char **environ;

/* The longest text that Linux passes is 32 pages long, its NUL counted: 2 MiB with the largest
   pages. */
static uint8_t buffer[(1 << 21) + 2];

static void require(int holds, const char *what, size_t i)
{
    if (!holds) {
        fprintf(stderr, "program_test: %s, number %zu\n", what, i);
        exit(1);
    }
}

/* What a call for text i puts into the room that it is given. */
typedef ptrdiff_t call(size_t i, uint8_t *to, size_t room);

/* Requires that a call answers with this text: with more room than it needs, with just enough, and
   with a byte less; the bytes after the text, or after the room, stay. */
static void require_text(call *answer, size_t i, const char *text)
{
    size_t length = strlen(text);

    for (size_t room = length ? length - 1 : 0; room <= length + 1; room++) {
        size_t copied = room < length ? room : length;

        memset(buffer, 0xaa, length + 2);
        require(answer(i, buffer, room) == (room < length ? -2 : (ptrdiff_t)length), "length", i);
        require(memcmp(buffer, text, copied) == 0, "text", i);
        require(buffer[copied] == 0xaa, "byte after the text", i);
    }
}

/* The name of an entry of the environment. */
static char name[4096];

static ptrdiff_t value_of_name(size_t i, uint8_t *to, size_t room)
{
    (void)i;
    return rattle_env((const uint8_t *)name, to, room);
}

/* Requires the value of an entry by its name, unless an earlier entry has this name. */
static void require_value(size_t i)
{
    size_t length = strcspn(environ[i], "=");
    const char *value = environ[i] + length + 1;

    require(length < sizeof name, "length of a name", i);
    memcpy(name, environ[i], length);
    name[length] = 0;
    if (environ[i][length] && getenv(name) == value)
        require_text(value_of_name, i, value);
}

static void test_environment(void)
{
    size_t i = 0;

    for (; environ && environ[i]; i++) {
        require_text(rattle_env_at, i, environ[i]);
        require_value(i);
    }
    require(rattle_env_at(i, buffer, sizeof buffer) == -1, "entry after the last", i);
    require(rattle_env_at(SIZE_MAX, buffer, sizeof buffer) == -1, "last number of an entry", SIZE_MAX);
    require(rattle_env((const uint8_t *)"NO_SUCH_VARIABLE", buffer, sizeof buffer) == -1, "absent variable", i);
}

static void test_memory(size_t beyond)
{
    struct memory some = rattle_alloc(0, 16), refused;

    require(some.is_there && (uintptr_t)some.start % 16 == 0, "0 bytes", 0);
    some = rattle_realloc(some.start, 0, 1000, 16);
    require(some.is_there, "1000 bytes", 0);
    memset(some.start, 7, 1000);
    refused = rattle_realloc(some.start, 1000, beyond, 16);
    require(!refused.is_there && ((uint8_t *)some.start)[999] == 7, "refused growth", 0);
    rattle_dealloc(some.start);
    refused = rattle_alloc(beyond, 16);
    require(!refused.is_there && (uintptr_t)refused.start % 16 == 0, "refused memory", 0);
}

static int32_t open_at(int32_t directory, const char *path)
{
    return rattle_open_dir_at(directory, (const uint8_t *)path);
}

static void test_directories(void)
{
    int32_t outer = open_at(AT_FDCWD, "/proc"), inner = open_at(outer, "sys");

    require(outer >= 0 && inner >= 0, "directories", 0);
    require(open_at(outer, "self") == -1, "symbolic link as a directory", 0);
    require(open_at(outer, "version") == -1, "file as a directory", 0);
    require(open_at(outer, "no-such-directory") == -1, "absent directory", 0);
    require(close(outer) == 0 && close(inner) == 0, "closed directories", 0);
}

int main(int argc, char **argv)
{
    char *none[] = {NULL};

    if (argc == 2 && strcmp(argv[1], "exec") == 0) {
        execve("/proc/self/exe", none, environ);
        return 1;
    }
    for (size_t i = 0; i < (size_t)argc; i++)
        require_text(rattle_arg, i, argv[i]);
    require(rattle_arg((size_t)argc, buffer, sizeof buffer) == -1, "argument after the last", (size_t)argc);
    require(rattle_arg(SIZE_MAX, buffer, sizeof buffer) == -1, "last number of an argument", SIZE_MAX);
    test_environment();
    test_directories();
    rattle_set_errno(EIO);
    require(errno == EIO && rattle_errno() == EIO, "errno", 0);
    test_memory(argc == 2 && strcmp(argv[1], "memory") == 0 ? (size_t)1 << 31 : SIZE_MAX / 2);
    environ = NULL;
    test_environment();
    require(rattle_env((const uint8_t *)"PATH", buffer, sizeof buffer) == -1, "variable without an environment", 0);
    printf("%d\n", argc);
    return 0;
}
