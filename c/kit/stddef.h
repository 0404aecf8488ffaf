/* What a compiler has of its own: the kit's comes without. (The C library asks for single names by __need_..; here all are there.) */
#ifndef NTWIN_KIT_STDDEF_H
#define NTWIN_KIT_STDDEF_H
typedef __SIZE_TYPE__ size_t;
typedef __PTRDIFF_TYPE__ ptrdiff_t;
typedef __WINT_TYPE__ wint_t;
#ifndef __cplusplus
typedef __WCHAR_TYPE__ wchar_t;
#endif
#define NULL ((void *)0)
#define offsetof(type, member) __builtin_offsetof(type, member)
#endif
