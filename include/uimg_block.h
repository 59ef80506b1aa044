/* uimg_block.h: memory for libuimg where there is no malloc. Link libuimg_block.a in place of libuimg.a; it needs
   nothing but memcpy, memmove and memset. */
#ifndef UIMG_BLOCK_H
#define UIMG_BLOCK_H

#include <stddef.h>

#ifdef __cplusplus
extern "C" {
#endif

/* Gives the library a block of `size` bytes for all its memory; a block that was given before is no longer used. Until
   the first call no memory can be allocated. A call of uimg.h needs some 128 bytes for each node of a FIT image, and up
   to twice the length of a text; uimg_check_strict also needs some for the names in one node, and uimg_check_signed for
   the keys. Verifying or listing an ordinary image takes 8 KiB. Only one thread at a time may call this and the functions of uimg.h. */
void uimg_use_block(void *start, size_t size);

/* Returns the most bytes of the block that were in use at once since it was given. */
size_t uimg_block_most(void);

#ifdef __cplusplus
}
#endif

#endif
