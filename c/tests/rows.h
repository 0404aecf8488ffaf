/* Rows that the compiler answers: it compiles or it does not. For headers.c and headers_types.c. */
#ifndef ROWS_H
#define ROWS_H

#include <windows.h>

#include <handleapi.h>
#include <process.h>
#include <tchar.h>
#include <versionhelpers.h>

#define JOINED(a, b) a##b
#define ROW(line) JOINED(row_, line)
/* A constant expression with this value. */
#define VALUE(constant, value) typedef char ROW(__LINE__)[(constant) == (value) ? 1 : -1]
#define SIZE(type, size) typedef char ROW(__LINE__)[sizeof(type) == (size) ? 1 : -1]
/* Two declarations of one variable, which have to agree. */
#define POINTS(pointer, type) \
    extern pointer ROW(__LINE__); \
    extern type *ROW(__LINE__)
#define OFFSET(type, field, offset) typedef char ROW(__LINE__)[offsetof(type, field) == (offset) ? 1 : -1]

#endif
