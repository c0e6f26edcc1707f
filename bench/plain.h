/* The manifest check in plain C, with which the proved reader's speed is compared. It answers as manifest_check. */
#ifndef PLAIN_H
#define PLAIN_H

#include <stddef.h>
#include <stdint.h>

uint32_t plain_check(const uint8_t *bytes, size_t length);

#endif
