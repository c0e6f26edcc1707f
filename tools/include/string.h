#pragma once
#include <stddef.h>
void *memcpy(void *to, const void *from, size_t size);
void *memset(void *to, int byte, size_t size);
int strcmp(const char *left, const char *right);
size_t strlen(const char *text);
char *strerror(int error);
