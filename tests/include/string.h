/* What the kit's clang does not bring along: the part of <string.h> that is used here. */
#ifndef TESTS_STRING_H
#define TESTS_STRING_H
#include <stddef.h>
int memcmp(const void *a, const void *b, size_t length);
void *memcpy(void *to, const void *from, size_t length);
void *memmove(void *to, const void *from, size_t length);
void *memset(void *to, int byte, size_t length);
int strcmp(const char *a, const char *b);
#endif
