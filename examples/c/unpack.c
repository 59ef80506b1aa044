/* unpack.c: checks an image, and writes the payload at a position to standard output.

       cc -o unpack unpack.c -luimg          (or libuimg.a in place of -luimg)
       ./unpack kernel.itb 0 > payload
       ./unpack signed.itb 0 dev.pem > payload

   The exit status is like that of the program uimg: 0 done, 1 refused or not right, 2 a wrong command line or keys, 3 a
   failed file, write or memory.

   uimg_check_strict with UIMG_SHA256 is the check for an image that U-Boot is to boot: each image in it has a right hash
   of that strength, and U-Boot takes just the bytes that were checked. Without it U-Boot may take others, which no hash
   covers, since by libfdt it finds a node kernel@1 by the name kernel, and the first of two properties of one name.
   uimg_verify also returns 0 for an image without hashes. uimg_check_signed also requires that each configuration is
   signed by the keys of a file, which tells who made the image.
   A legacy image has CRC-32 alone: UIMG_CRC32 takes it. */
#include <uimg.h>

#include <fcntl.h>
#include <stdio.h>
#include <sys/mman.h>
#include <sys/stat.h>
#include <unistd.h>

/* Prints why an image is refused, as the program does. */
static void tell(uint32_t fault, uint64_t place)
{
    uint8_t line[64] = {0};
    size_t length = uimg_fault_line(fault, line, sizeof line);

    fprintf(stderr, "unpack: %.*s", (int)length, (char *)line);
    if (fault / 256 == 'B')
        fprintf(stderr, " at %llu", (unsigned long long)place);
    fputc('\n', stderr);
}

/* A file in memory. */
struct file {
    const uint8_t *bytes;
    size_t size;
};

/* Says why an image without a fault is not taken. */
static const char *reason(uint32_t status)
{
    switch (status) {
    case UIMG_BAD_KEYS:
        return "no keys that U-Boot takes";
    case UIMG_NO_MEMORY:
        return "out of memory";
    default:
        return "not right, or without a strong hash";
    }
}

/* Checks an image, by keys if there are any, and returns the status; unless that is 0, the reason goes to standard
   error. */
static uint32_t check(struct file image, const struct file *keys)
{
    uimg_report report = {0};
    uint32_t status;

    if (keys)
        status = uimg_check_signed(image.bytes, image.size, keys->bytes, keys->size, (const uint8_t *)"", 0,
                                   UIMG_SHA256, &report);
    else
        status = uimg_check_strict(image.bytes, image.size, UIMG_SHA256, &report);

    if (report.fault)
        tell(report.fault, report.place);
    else if (status != UIMG_DONE)
        fprintf(stderr, "unpack: %s\n", reason(status));
    return status;
}

static uint32_t unpack(struct file image, uint32_t position)
{
    uimg_payload payload = {0};
    uint32_t status = uimg_payload_at(image.bytes, image.size, position, &payload);

    if (payload.fault)
        tell(payload.fault, payload.place);
    else if (status != UIMG_DONE)
        fprintf(stderr, "unpack: out of memory\n");
    if (status != UIMG_DONE)
        return status;
    if (fwrite(image.bytes + payload.start, 1, payload.size, stdout) != payload.size || fflush(stdout))
        return 3;
    return UIMG_DONE;
}

/* Returns whether a word is a position: digits alone, of a number of 32 bits. */
static int read_position(const char *word, uint32_t *position)
{
    unsigned long long number = 0;

    if (!*word)
        return 0;
    for (; *word; word++) {
        if (*word < '0' || *word > '9')
            return 0;
        number = 10 * number + (unsigned)(*word - '0');
        if (number > UINT32_MAX)
            return 0;
    }
    *position = (uint32_t)number;
    return 1;
}

/* Maps a file. Returns whether it could; the reason goes to standard error. */
static int map(const char *path, struct file *to)
{
    struct stat about;
    int file = open(path, O_RDONLY);
    void *bytes;
    /* An empty file cannot be mapped. */
    static const uint8_t nothing[1];

    if (file < 0 || fstat(file, &about)) {
        perror(path);
        return 0;
    }
    if (!S_ISREG(about.st_mode)) {
        fprintf(stderr, "unpack: %s is no regular file\n", path);
        return 0;
    }
    *to = (struct file){nothing, (size_t)about.st_size};
    if (!about.st_size)
        return 1;
    bytes = mmap(NULL, to->size, PROT_READ, MAP_PRIVATE, file, 0);
    if (bytes == MAP_FAILED) {
        perror(path);
        return 0;
    }
    to->bytes = bytes;
    return 1;
}

int main(int count, char **words)
{
    struct file image, keys;
    uint32_t position, status;

    if (count < 3 || count > 4 || !read_position(words[2], &position)) {
        fprintf(stderr, "usage: unpack IMAGE POSITION [KEYS]\n");
        return 2;
    }
    if (!map(words[1], &image) || (count == 4 && !map(words[3], &keys)))
        return 3;
    status = check(image, count == 4 ? &keys : NULL);
    return (int)(status == UIMG_DONE ? unpack(image, position) : status);
}
