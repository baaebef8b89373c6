/* For code without a C library: the kit's clang has no headers of its own. */
#ifndef PSXGPU_STDDEF_H
#define PSXGPU_STDDEF_H
typedef __SIZE_TYPE__ size_t;
typedef __PTRDIFF_TYPE__ ptrdiff_t;
#define NULL ((void *)0)
#endif
