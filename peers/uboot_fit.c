/* uboot_fit.c: lists what U-Boot 2023.01 finds in FIT images, over libfdt and by U-Boot's rules: whether it takes the
   image, and the offset and size of each payload with the hash nodes that are compared. The paths are read from standard
   input, a line each; each image has a line `image PATH`, then `refused REASON` or the lines of its payloads. libfdt's
   check reads where nothing is for some blobs (peers/fdt_check.c): that refuses an image too.

       cc -std=gnu11 -o out/uboot_fit peers/uboot_fit.c -lfdt */
#include <libfdt.h>

#include <setjmp.h>
#include <signal.h>
#include <stdint.h>
#include <stdio.h>
#include <stdlib.h>
#include <string.h>

/* The bytes after a file that a short value at its end is read from, as from a board's memory. */
enum { BEHIND = 16, LONGEST_PATH = 4096 };

static sigjmp_buf crashed;

static void on_crash(int signal)
{
    siglongjmp(crashed, signal);
}

static const char *reason_of(int error, const char *reason)
{
    return error ? reason : NULL;
}

/* Whether a node or one below it has a name with a unit address. */
static int has_at(const void *fit, int node)
{
    const char *name = fdt_get_name(fit, node, NULL);
    int child;

    if (!name || strchr(name, '@'))
        return 1;
    fdt_for_each_subnode(child, fit, node)
        if (has_at(fit, child))
            return 1;
    return 0;
}

/* Why a board refuses the image, or NULL. */
static const char *refusal(const void *fit, size_t size)
{
    if (size < FDT_V1_SIZE || fdt_check_header(fit))
        return "header";
    if (fdt_check_full(fit, size))
        return "blob";
    if (has_at(fit, 0))
        return "unit address";
    if (!fdt_getprop(fit, 0, "description", NULL))
        return "description";
    if (!fdt_getprop(fit, 0, "timestamp", NULL))
        return "timestamp";
    return reason_of(fdt_path_offset(fit, "/images") < 0, "images");
}

/* Reads the first four bytes of a property, whatever its length is. */
static int has_cell(const void *fit, int node, const char *name, uint32_t *cell)
{
    const void *value = fdt_getprop(fit, node, name, NULL);
    fdt32_t word;

    if (!value)
        return 0;
    memcpy(&word, value, sizeof word);
    *cell = fdt32_to_cpu(word);
    return 1;
}

/* Finds the payload of an image. */
static int has_payload(const void *fit, int node, uint64_t *offset, uint64_t *size)
{
    uint32_t at, length;
    const char *inside;
    int bytes;

    if (has_cell(fit, node, "data-position", &at))
        *offset = at;
    else if (has_cell(fit, node, "data-offset", &at))
        *offset = (uint64_t)at + ((fdt_totalsize(fit) + 3) & ~UINT32_C(3));
    else {
        inside = fdt_getprop(fit, node, "data", &bytes);
        if (!inside)
            return 0;
        *offset = (uint64_t)(inside - (const char *)fit);
        *size = (uint64_t)bytes;
        return 1;
    }
    if (!has_cell(fit, node, "data-size", &length))
        return 0;
    *size = length;
    return 1;
}

static int is_ignored(const void *fit, int node)
{
    int length;
    const void *value = fdt_getprop(fit, node, "uboot-ignore", &length);

    return value && length == 4 && memcmp(value, "\0\0\0\0", 4);
}

static void print_hex(const char *name)
{
    for (; *name; name++)
        printf("%02x", (unsigned char)*name);
}

/* Lists the payloads. A name that leads to another node is marked. */
static void list(const void *fit)
{
    int images = fdt_path_offset(fit, "/images"), node, child;

    fdt_for_each_subnode(node, fit, images) {
        const char *name = fdt_get_name(fit, node, NULL);
        uint64_t offset = 0, size = 0;
        int found = has_payload(fit, node, &offset, &size);

        printf("payload ");
        print_hex(name);
        printf(" %d %llu %llu %d", found, (unsigned long long)offset, (unsigned long long)size,
               fdt_subnode_offset(fit, images, name) == node);
        fdt_for_each_subnode(child, fit, node) {
            const char *below = fdt_get_name(fit, child, NULL);

            if (strncmp(below, "hash", 4) == 0 && !is_ignored(fit, child)) {
                printf(" ");
                print_hex(below);
            }
        }
        printf("\n");
    }
}

static void report(const void *fit, size_t size)
{
    const char *why = refusal(fit, size);

    if (why)
        printf("refused %s\n", why);
    else
        list(fit);
}

static void *contents(const char *path, size_t *size)
{
    FILE *file = fopen(path, "rb");
    char *bytes;

    if (!file)
        return NULL;
    fseek(file, 0, SEEK_END);
    *size = (size_t)ftell(file);
    rewind(file);
    bytes = calloc(1, *size + BEHIND + FDT_V17_SIZE);
    if (bytes && fread(bytes, 1, *size, file) != *size) {
        free(bytes);
        bytes = NULL;
    }
    fclose(file);
    return bytes;
}

int main(void)
{
    char path[LONGEST_PATH];

    signal(SIGSEGV, on_crash);
    signal(SIGBUS, on_crash);
    while (fgets(path, sizeof path, stdin)) {
        size_t size;
        void *fit;

        path[strcspn(path, "\n")] = '\0';
        fit = contents(path, &size);
        if (!fit)
            return 1;
        printf("image %s\n", path);
        if (sigsetjmp(crashed, 1) == 0)
            report(fit, size);
        else
            printf("refused crash\n");
        free(fit);
    }
    return 0;
}
