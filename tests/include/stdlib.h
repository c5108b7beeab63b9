/* What the kit's clang does not bring along: the part of <stdlib.h> that is used here. */
#ifndef TESTS_STDLIB_H
#define TESTS_STDLIB_H
long atol(const char *text);
void exit(int status);
#endif
