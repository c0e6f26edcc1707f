/* The manifest reader, for C on x86-64 from its level v2 on: link libmanifest.a. */
#ifndef MANIFEST_H
#define MANIFEST_H

#include <stddef.h>
#include <stdint.h>

/* Do the `length` bytes at `bytes` form a good manifest? Answers 0 where they do and 3 where they do not, whatever
 * they are. `bytes` is not NULL, even where `length` is 0. Nothing is written, kept or allocated. */
uint32_t manifest_check(const uint8_t *bytes, size_t length);

#endif
