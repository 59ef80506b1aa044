/* uimg.h: lists and verifies U-Boot images in memory, legacy images and FIT images, and locates their payloads.
   Link libuimg.a or libuimg.so. Texts are byte for byte those of the program uimg.

   Proved for every image, well formed or not (LIBRARY.md has the contracts): a call returns, reads nothing outside
   the image, writes nothing outside the memory that it is given, and returns what the definition says of the image's
   bytes, or UIMG_NO_MEMORY. Only tested: that UIMG_NO_MEMORY comes only if memory was refused, and the memory calls
   in C (library/).

   Only uimg_check_signed checks signatures, those of configurations: right hashes say that the image is undamaged, not
   who made it. No call checks the hash nodes of configurations.

   On x86-64 the library needs a processor of the level x86-64-v2 (SSE4.2), and uses the SSE registers.

   The caller must ensure:
   - No pointer is null, even for a size of 0, and each points to as many bytes as its size says.
   - The text buffer and the report or payload overlap neither each other nor the image, names or keys, and are
     initialized (by calloc or = {0}). During the call nobody else writes the image, names or keys (or writes or
     truncates a mapped file), and nobody else reads or writes the rest.
   - Calls may run in several threads at once, each on its own memory. No call is made from a signal handler. */
#ifndef UIMG_H
#define UIMG_H

#include <stddef.h>
#include <stdint.h>

#ifdef __cplusplus
extern "C" {
#endif

/* The status of a call, like the exit status of the program. */
enum uimg_status {
    UIMG_DONE = 0,      /* success; of a verification: every hash that the image has is right */
    UIMG_NOT_RIGHT = 1, /* a checksum or hash is wrong, missing or too weak, payloads overlap, or there is no image;
                           if fault is not 0, it is the reason */
    UIMG_BAD_KEYS = 2,  /* of uimg_check_signed: the keys are refused, and nothing is known of the image */
    UIMG_NO_MEMORY = 3  /* memory was refused: nothing is known of the image, and no text was written */
};

/* The code of a fault: UIMG_FAULT('L', 8) is L8, no such part; 0 is no fault. The letter is L for legacy images, B
   for the blob of a FIT image, F for the images in it, and S for what only uimg_check_strict and uimg_check_signed
   refuse. */
#define UIMG_FAULT(letter, number) ((uint32_t)(letter) * 256u + (uint32_t)(number))

/* The result of a listing, a verification or a check. */
typedef struct uimg_report {
    uint32_t status; /* UIMG_DONE, UIMG_NOT_RIGHT, UIMG_BAD_KEYS or UIMG_NO_MEMORY */
    uint32_t fault;  /* why the image is refused, or 0 */
    uint64_t place;  /* offset in the image of a fault with the letter B, else 0 */
    size_t needed;   /* full length of the text in bytes */
    size_t written;  /* bytes written to the buffer: the smaller of needed and the buffer's size */
    uint64_t peak;   /* peak bytes of the table of a FIT image's nodes, plus 8192 for a window on the stack: at most
                        8192 plus 128 per node, without the text. 0 if memory or the keys were refused */
} uimg_report;

/* The location of a payload: image[start] to image[start + size - 1], always inside the image. */
typedef struct uimg_payload {
    uint32_t status; /* UIMG_DONE if it was found, else UIMG_NOT_RIGHT or UIMG_NO_MEMORY */
    uint32_t fault;  /* why not, or 0 */
    uint64_t place;  /* offset in the image of a fault with the letter B, else 0 */
    size_t start;    /* start and size are 0 if it was not found */
    size_t size;
    uint64_t peak;   /* as in a report, but also valid if memory was refused */
} uimg_payload;

/* The number of parts of a legacy image, or of images in a FIT image. */
typedef struct uimg_count {
    uint32_t status; /* UIMG_DONE if they were counted, else UIMG_NOT_RIGHT or UIMG_NO_MEMORY */
    uint32_t fault;  /* why not, or 0 */
    uint64_t place;  /* offset in the image of a fault with the letter B, else 0 */
    size_t count;    /* 0 if they were not counted */
    uint64_t peak;   /* as in a report, but also valid if memory was refused */
} uimg_count;

/* Lists an image, like `uimg dumpimage -l`. Returns report->status. The text is truncated to the buffer; the rest of
   the buffer is unchanged, and all of it if memory was refused. */
uint32_t uimg_list(const uint8_t *image, size_t image_size, uint8_t *text, size_t text_size, uimg_report *report);

/* Verifies an image's checksums, like `uimg verify`: a line each for the header and the data of a legacy image, or for
   each hash node of each image of a FIT. Returns report->status: 0 if and only if the image is not refused and each
   line ends with ok or, for an image without hash nodes, with unhashed. That includes a FIT without images: use
   uimg_check to require more. */
uint32_t uimg_verify(const uint8_t *image, size_t image_size, uint8_t *text, size_t text_size, uimg_report *report);

/* The weakest algorithm that a check accepts, in order of strength. CRC-32, MD5 and SHA-1 detect damage, but not
   forgery. */
enum uimg_need {
    UIMG_CRC32 = 1,
    UIMG_MD5 = 2,
    UIMG_SHA1 = 3,
    UIMG_SHA256 = 4,
    UIMG_SHA384 = 5,
    UIMG_SHA512 = 6
};

/* Checks an image without printing, like `uimg check --need` (needed and written are 0). Images are checked in order, up
   to the first that is not right. Reads no more bytes of payloads than the file has, and takes no memory for a text.

   Returns report->status, which is 0 only if
   - the FIT has an image,
   - each hash of its images is right, also one by crc16-ccitt, which uimg_verify calls unsupported,
   - each of its images has a right hash by `need` or a stronger algorithm,
   - their payloads together are not longer than the file;
   of a legacy image, only if uimg_verify returns 0, `need` is UIMG_CRC32, and its table of parts fits its data.
   With a `need` that is not in the list above the call always fails. */
uint32_t uimg_check(const uint8_t *image, size_t image_size, uint32_t need, uimg_report *report);

/* Checks an image as uimg_check does and, if that finds all right, whether U-Boot reads what was checked. U-Boot
   searches a FIT more loosely than a check: by a name up to an @, or by the first of two properties. So it may load
   bytes that no hash covers.

   If this call returns 0, U-Boot 2023.01 finds in a FIT exactly the images that were checked, each with the payload
   whose hashes are right, and compares no other hash; a legacy image has data, and a type, an architecture, a system
   and a compression that image.h names. What uimg_check accepts and this call does not has a fault, mostly with the
   letter S, whose line has the word of `uimg check --strict`, as "S3 unit-address". Unlike the program it does not
   check that the images that a configuration names exist. Takes memory for the names in one node, which peak does not
   count. */
uint32_t uimg_check_strict(const uint8_t *image, size_t image_size, uint32_t need, uimg_report *report);

/* Checks an image as uimg_check_strict does and, if that finds all right, whether each configuration of the FIT is
   signed, as U-Boot 2023.01 verifies it. `keys` is one of
   - the text of a public key in PEM with nothing before or after it, as `openssl rsa -pubout` writes it,
   - a control devicetree of U-Boot, as `mkimage -K` completes it, of at most 1 MiB. Its keys are the nodes in
     /signature whose property `required` is "conf". Each of them must have signed each configuration, or one of them,
     if the property `required-mode` of /signature is "any".
   A key is RSA of 2048, 3072 or 4096 bits, with an odd exponent above 2; in a devicetree with all that `mkimage -K`
   writes of it. `config` is the name of the only configuration that must be signed, without a NUL; if config_size is 0,
   each must be.

   Returns report->status, which is
   - UIMG_DONE only if uimg_check_strict returns it, the FIT has a configuration (of this name), and each of these has a
     signature by the keys over SHA-256, SHA-384 or SHA-512,
   - UIMG_NOT_RIGHT with a fault from S17 to S24, whose line has the reason, as "S24 bad-signature", if one of these has
     none, or the FIT has none of these; with S17 for a legacy image, which has no signatures,
   - UIMG_BAD_KEYS if `keys` is neither, or has no such key, or another one, whatever the image is,
   - else that of uimg_check_strict.

   A signature covers the root, the configuration, and the images that it names, with their hash nodes. An image that no
   configuration names is not signed. Takes memory for the keys and for the nodes that a signature covers, too, which
   peak does not count. */
uint32_t uimg_check_signed(const uint8_t *image, size_t image_size, const uint8_t *keys, size_t keys_size,
                           const uint8_t *config, size_t config_size, uint32_t need, uimg_report *report);

/* Locates the part of a legacy image, or the payload of an image in a FIT, by its position, counted from 0. The
   checksums of a legacy image are verified; the payload of a FIT is not read, so check it first.

   Returns payload->status; for a legacy image that is never UIMG_NO_MEMORY. The fault is
   - L8 or F4 if there is no such position,
   - F2, F3 or L7 if the payload or part at this position is missing or outside the image,
   - any other if the image is refused, whatever the position. */
uint32_t uimg_payload_at(const uint8_t *image, size_t image_size, uint32_t position, uimg_payload *payload);

/* Locates the payload of the first image with a name in a FIT; the name is not terminated by NUL. The structure block
   is read once, however many images there are.

   Returns payload->status. The fault is
   - F4 if no image has the name,
   - B2 for a legacy image, whose parts have no names,
   - any other as for uimg_payload_at. */
uint32_t uimg_payload_named(const uint8_t *image, size_t image_size, const uint8_t *name, size_t name_size,
                            uimg_payload *payload);

/* Locates the name of the image at a position, counted from 0, in a FIT: payload->start and payload->size are those of
   the name, without its NUL. Returns payload->status. */
uint32_t uimg_payload_name(const uint8_t *image, size_t image_size, uint32_t position, uimg_payload *payload);

/* Counts the images of a FIT, or the parts of a legacy image: those in the table of the types multi and script, else
   one. Returns count->status; for a legacy image, whose checksums are verified, that is never UIMG_NO_MEMORY. At each
   position below the count uimg_payload_at finds a payload, or reports a fault of that payload, unless memory is
   refused. */
uint32_t uimg_payload_count(const uint8_t *image, size_t image_size, uimg_count *count);

/* Writes the line of a fault, as "L8 no such part", truncated to the buffer, without a NUL. Returns the full length of
   the line, at most 64: 0 if the number is not that of a fault. After the line of a fault with the letter B the program
   prints its offset, as " at 40". */
size_t uimg_fault_line(uint32_t fault, uint8_t *text, size_t text_size);

/* Writes the version, as "0.1.0", truncated to the buffer, without a NUL. Returns its full length in bytes. */
size_t uimg_version(uint8_t *text, size_t text_size);

#ifdef __cplusplus
}
#endif

#endif
