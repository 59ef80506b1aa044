/* fdt_check.c: mutated FIT images, as libfdt's fdt_check_full and libuimg read their blobs: how many each takes or
   refuses, by the reasons (docs/LIBRARY.md has a run). fdt_check SEED COUNT IMAGE..

       cc -std=gnu11 -Iinclude -o out/fdt_check peers/fdt_check.c lib/libuimg.a -lfdt */
#include <libfdt.h>
#include <uimg.h>

#include <setjmp.h>
#include <signal.h>
#include <stdio.h>
#include <stdlib.h>
#include <string.h>

/* CRASHED is beside libfdt's errors: its check read where nothing is. */
enum { ERRORS = 32, CRASHED = 31, FAULTS = 16 };

static unsigned long found[ERRORS][FAULTS];
static uint64_t state;

static uint32_t chance(uint32_t below)
{
    state = state * 6364136223846793005u + 1442695040888963407u;
    return (uint32_t)(state >> 33) % below;
}

/* Changes some words or bits, of the header more often than of the rest. */
static void mutate(uint8_t *image, size_t size)
{
    for (uint32_t left = 1 + chance(3); left; left--) {
        size_t at = chance(4) ? chance((uint32_t)size) : chance(40);

        switch (chance(3)) {
        case 0:
            image[at] ^= (uint8_t)(1 << chance(8));
            break;
        case 1:
            image[at] = (uint8_t)chance(256);
            break;
        default:
            at &= ~(size_t)3;
            if (at + 4 <= size)
                memcpy(image + at, "\0\0\0", 3), image[at + 3] = (uint8_t)chance(16);
        }
    }
}

static sigjmp_buf behind;

static void go_behind(int signal)
{
    (void)signal;
    siglongjmp(behind, 1);
}

static int checked(const uint8_t *image, size_t size)
{
    if (sigsetjmp(behind, 1))
        return -CRASHED;
    return fdt_check_full(image, size);
}

/* The number of the blob's fault, 0 where the blob is accepted. */
static uint32_t blob_fault(const uint8_t *image, size_t size)
{
    uimg_report report = {0};
    uint8_t text[1] = {0};

    uimg_verify(image, size, text, 0, &report);
    /* What does not begin with the magic number is read as a legacy image. */
    if (report.fault / 256 == 'L')
        return 2;
    return report.fault / 256 == 'B' ? report.fault % 256 : 0;
}

int main(int count, char **words)
{
    struct sigaction action = {.sa_handler = go_behind};

    sigaction(SIGSEGV, &action, NULL);
    sigaction(SIGBUS, &action, NULL);
    state = strtoull(words[1], NULL, 10);
    for (unsigned long left = strtoul(words[2], NULL, 10); left; left--) {
        FILE *file = fopen(words[3 + chance((uint32_t)count - 3)], "rb");
        static uint8_t whole[1 << 16];
        size_t size = fread(whole, 1, sizeof whole, file);
        uint8_t *image;
        int error;

        fclose(file);
        mutate(whole, size);
        if (!chance(8))
            size -= chance((uint32_t)size);
        image = malloc(size ? size : 1);
        memcpy(image, whole, size);
        error = checked(image, size);
        found[error < 0 ? -error : 0][blob_fault(image, size)]++;
        free(image);
    }
    for (int error = 0; error < ERRORS; error++)
        for (int fault = 0; fault < FAULTS; fault++)
            if (found[error][fault])
                printf("%7lu %-24s B%d\n", found[error][fault], error == CRASHED ? "crashed" : error ? fdt_strerror(-error) : "taken", fault);
    return 0;
}
