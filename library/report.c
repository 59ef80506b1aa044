/* report.c: prints all results of the library for images, for comparisons and valgrind.
   report [-b BYTES] FILE..: with -b over a block of this size, if linked with libuimg_block.a. */
#include <uimg.h>
#ifdef OVER_A_BLOCK
#include <uimg_block.h>
#endif

#include <stdio.h>
#include <stdlib.h>
#include <string.h>

enum { ROOM = 1 << 16, POSITIONS = 4 };

/* The key of examples/dev.pem. */
static const char KEY[] =
    "-----BEGIN PUBLIC KEY-----\n"
    "MIIBIjANBgkqhkiG9w0BAQEFAAOCAQ8AMIIBCgKCAQEAqFQqYJ0EzXQygAmlfveH\n"
    "pULbnA1d7LSapIESJDc5lJfFiB5u1MlQ+zqlEPf3PAIraHgQ/I45/N+D3U1RNKe1\n"
    "SyepfIZjYgm34rGo/EScmyV8vL9Bz1EtZmr12R1+TV5WShH/u1BYcX/QzWSfm4Wy\n"
    "KcnnDbzx7z+S78T6x1eHWIdgnqlEJkkFq6ENWE2STDjDkUFCo8ES7A8cIFYY9IIn\n"
    "WwmiFb8jsxJrRPFzOD4PtfdOl7c8dyJVLvTXseBIZ08fXvEKJabmf7WXP/2UHlAl\n"
    "VBUWexNfe5sh2GHT0A2g91Dd697fUd7Z1jibTsIgrPBD6QrLoUtFj7G9kSLQaOez\n"
    "6QIDAQAB\n"
    "-----END PUBLIC KEY-----\n";

typedef uint32_t command(const uint8_t *, size_t, uint8_t *, size_t, uimg_report *);

static size_t block_size = 1 << 20;

/* Gives the block anew before each call over a block. */
static void prepare(void)
{
#ifdef OVER_A_BLOCK
    static uint8_t block[1 << 20];

    uimg_use_block(block, block_size);
#endif
}

/* Returns memory of exactly this size, so valgrind finds an access beyond it. */
static void *exactly(size_t size)
{
    void *memory = malloc(size ? size : 1);

    if (!memory)
        exit(3);
    memset(memory, 0, size);
    return memory;
}

/* Unless memory was refused, a call took at least its window of 8192 bytes, and at most 128 bytes
   more and 16 for each byte of the image. */
static void look_at_peak(uint32_t status, uint64_t peak, size_t size)
{
    if (status != UIMG_NO_MEMORY && (peak < 8192 || peak > 8320 + 16 * (uint64_t)size))
        exit(4);
}

static void tell(const char *name, command *run, const uint8_t *image, size_t size, size_t room)
{
    uint8_t *text = exactly(room);
    uimg_report report = {0};
    uint32_t status;

    prepare();
    status = run(image, size, text, room, &report);
    printf("%s: %u %u %u %llu %zu %zu\n%.*s\n", name, status, report.status, report.fault,
           (unsigned long long)report.place, report.needed, report.written, (int)report.written, (char *)text);
    look_at_peak(status, report.peak, size);
    free(text);
}

typedef uint32_t check(const uint8_t *, size_t, uint32_t, uimg_report *);

static void tell_check(const char *name, check *run, const uint8_t *image, size_t size, uint32_t need)
{
    uimg_report report = {0};
    uint32_t status;

    prepare();
    status = run(image, size, need, &report);
    printf("%s%u: %u %u %u %llu %zu %zu\n", name, need, status, report.status, report.fault,
           (unsigned long long)report.place, report.needed, report.written);
    look_at_peak(status, report.peak, size);
}

static void tell_signed(const uint8_t *image, size_t size)
{
    uint8_t *key = exactly(sizeof KEY - 1);
    uimg_report report = {0};
    uint32_t status;

    memcpy(key, KEY, sizeof KEY - 1);
    prepare();
    status = uimg_check_signed(image, size, key, sizeof KEY - 1, key, 0, UIMG_SHA256, &report);
    printf("signed: %u %u %u %llu %zu %zu\n", status, report.status, report.fault, (unsigned long long)report.place,
           report.needed, report.written);
    look_at_peak(status, report.peak, size);
    free(key);
}

static void tell_payload(const uint8_t *image, size_t size, uint32_t position)
{
    uimg_payload payload = {0};
    uint32_t status;

    prepare();
    status = uimg_payload_at(image, size, position, &payload);
    printf("%u: %u %u %u %llu %zu %zu\n", position, status, payload.status, payload.fault,
           (unsigned long long)payload.place, payload.start, payload.size);
    look_at_peak(status, payload.peak, size);
    if (payload.start > size || payload.size > size - payload.start)
        exit(4);
}

static void tell_named(const uint8_t *image, size_t size, const char *name)
{
    uimg_payload payload = {0};
    uint32_t status;

    prepare();
    status = uimg_payload_named(image, size, (const uint8_t *)name, strlen(name), &payload);
    printf("%s: %u %u %u %llu %zu %zu\n", name, status, payload.status, payload.fault,
           (unsigned long long)payload.place, payload.start, payload.size);
    look_at_peak(status, payload.peak, size);
    if (payload.start > size || payload.size > size - payload.start)
        exit(4);
}

static void tell_names(const uint8_t *image, size_t size)
{
    uimg_count count = {0};
    uimg_payload name = {0};

    prepare();
    uimg_payload_count(image, size, &count);
    printf("count: %u %u %llu %zu\n", count.status, count.fault, (unsigned long long)count.place, count.count);
    look_at_peak(count.status, count.peak, size);
    prepare();
    uimg_payload_name(image, size, 0, &name);
    look_at_peak(name.status, name.peak, size);
    printf("name: %u %u %llu %.*s\n", name.status, name.fault, (unsigned long long)name.place, (int)name.size,
           (const char *)image + name.start);
}

static void report(const char *path)
{
    FILE *file = fopen(path, "rb");
    long size;
    uint8_t *image;

    if (!file || fseek(file, 0, SEEK_END) || (size = ftell(file)) < 0)
        exit(3);
    rewind(file);
    image = exactly((size_t)size);
    if (fread(image, 1, (size_t)size, file) != (size_t)size)
        exit(3);
    fclose(file);
    tell("list", uimg_list, image, (size_t)size, ROOM);
    tell("front", uimg_list, image, (size_t)size, 30);
    tell("verify", uimg_verify, image, (size_t)size, ROOM);
    tell("nothing", uimg_verify, image, (size_t)size, 0);
    for (uint32_t need = 0; need <= UIMG_SHA512 + 1; need++) {
        tell_check("check", uimg_check, image, (size_t)size, need);
        tell_check("strict", uimg_check_strict, image, (size_t)size, need);
    }
    tell_signed(image, (size_t)size);
    for (uint32_t position = 0; position < POSITIONS; position++)
        tell_payload(image, (size_t)size, position);
    tell_named(image, (size_t)size, "kernel");
    tell_names(image, (size_t)size);
    free(image);
}

int main(int count, char **words)
{
    int first = 1;

    if (count > 2 && !strcmp(words[1], "-b")) {
        block_size = (size_t)strtoul(words[2], NULL, 10);
        first = 3;
    }
    for (int i = first; i < count; i++)
        report(words[i]);
    return 0;
}
