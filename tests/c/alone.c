/* All that the archive needs beside itself: two functions that a C compiler may call for any code. sh build.sh alone links the two and
** nothing else, so a third symbol is an error. */
#include <stddef.h>

void *memcpy(void *to, const void *from, size_t length);
void *memset(void *at, int byte, size_t length);

void *memcpy(void *to, const void *from, size_t length) {
  for (size_t i = 0; i < length; i++) ((unsigned char *)to)[i] = ((const unsigned char *)from)[i];
  return to;
}

void *memset(void *at, int byte, size_t length) {
  for (size_t i = 0; i < length; i++) ((unsigned char *)at)[i] = (unsigned char)byte;
  return at;
}
