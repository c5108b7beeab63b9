/* What the kit's clang does not bring along: the part of <stddef.h> that is used here. */
#ifndef TESTS_STDDEF_H
#define TESTS_STDDEF_H
typedef __SIZE_TYPE__ size_t;
#endif
