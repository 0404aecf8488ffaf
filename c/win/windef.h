/* SPDX-License-Identifier: MIT OR Apache-2.0 */
/* The words of Microsoft's headers, and the types that ntwin.h does not need itself. */
#ifndef NTWIN_WINDEF_H
#define NTWIN_WINDEF_H

#include "../ntwin.h"
#include "ntwin_keywords.h"
#include "sal.h"
#include "sdkddkver.h"
#include "winapifamily.h"

#include <limits.h>

/* ---- Conventions of calls: there is one. */

#define cdecl
#define pascal
#define WINAPIV
#define WINAPI_INLINE WINAPI
#define APIPRIVATE
#define PASCAL
#define STDMETHODCALLTYPE
#define STDAPICALLTYPE

/* ---- Declarations. */

#define DECLSPEC_ALIGN(bytes) __declspec(align(bytes))
#define DECLSPEC_CACHEALIGN DECLSPEC_ALIGN(64)
#define DECLSPEC_DEPRECATED __declspec(deprecated)
#define DECLSPEC_IMPORT __declspec(dllimport)
#define DECLSPEC_NOINLINE __declspec(noinline)
#define DECLSPEC_NORETURN __declspec(noreturn)
#define DECLSPEC_NOTHROW __declspec(nothrow)
#define DECLSPEC_SELECTANY __declspec(selectany)
#define DECLSPEC_THREAD __declspec(thread)
#define WINADVAPI
#define WINBASEAPI
#define WINCOMMONAPI
#define WINUSERAPI
#define _CRTIMP
#define NTSYSAPI
#define NTSYSCALLAPI

#define FORCEINLINE __forceinline
#define CFORCEINLINE __forceinline
#define STKFORCEINLINE __forceinline

#ifdef __cplusplus
#define EXTERN_C extern "C"
#define EXTERN_C_START extern "C" {
#define EXTERN_C_END }
#define DEFAULT_UNREACHABLE default: __builtin_unreachable()
#else
#define EXTERN_C extern
#define EXTERN_C_START
#define EXTERN_C_END
#define DEFAULT_UNREACHABLE default: __builtin_unreachable()
#endif

#define UNALIGNED
#define RESTRICTED_POINTER __restrict__

#define FAR
#define NEAR
#ifndef IN
#define IN
#endif
#ifndef OUT
#define OUT
#endif
#ifndef OPTIONAL
#define OPTIONAL
#endif

#define UNREFERENCED_PARAMETER(name) ((void)(name))
#define DBG_UNREFERENCED_PARAMETER(name) ((void)(name))
#define DBG_UNREFERENCED_LOCAL_VARIABLE(name) ((void)(name))

/* ---- Types. */

typedef int8_t INT8, *PINT8;
typedef int16_t INT16, *PINT16;
typedef int32_t INT32, *PINT32, LONG32, *PLONG32;
typedef int64_t INT64, *PINT64, *PLONG64;
typedef uint8_t UINT8, *PUINT8;
typedef uint16_t UINT16, *PUINT16;
typedef uint32_t UINT32, *PUINT32, ULONG32, *PULONG32, DWORD32, *PDWORD32;
typedef uint64_t UINT64, *PUINT64, *PULONG64, *PDWORD64, *PDWORDLONG;
typedef int64_t *PLONGLONG, *LPLONGLONG;
typedef uint64_t *PULONGLONG, *LPULONGLONG;
typedef intptr_t *PLONG_PTR, *PINT_PTR;
typedef uintptr_t *PULONG_PTR, *PUINT_PTR, *PDWORD_PTR, KAFFINITY;
typedef size_t *PSIZE_T, *LPSIZE_T;
typedef ptrdiff_t SSIZE_T, *PSSIZE_T;
typedef int *PINT, *LPINT;
typedef unsigned *PUINT, *LPUINT;
typedef SHORT *PSHORT;
typedef USHORT *PUSHORT;
typedef ULONG *PULONG, *LPULONG;
typedef UCHAR *PUCHAR;
typedef CHAR CCHAR, *PCHAR, *PCH, *LPCH;
typedef BOOLEAN *PBOOLEAN;
typedef WORD *PWORD, *LPWORD;
typedef float FLOAT, *PFLOAT;
typedef double DOUBLE;
typedef WCHAR *PWCHAR, *PWCH, *LPWCH;
typedef const CHAR *PCCH, *LPCCH;
typedef const WCHAR *PCWCH, *LPCWCH;
typedef TCHAR *PTCHAR, *PTSTR;
typedef const TCHAR *PCTSTR;
typedef const void *PCVOID;
typedef void *PVOID64;
typedef uintptr_t WPARAM;
typedef intptr_t LPARAM, LRESULT;
typedef WORD ATOM, LANGID;
typedef DWORD LCID, COLORREF, ACCESS_MASK, *PACCESS_MASK;
typedef LONG HRESULT, NTSTATUS, *PNTSTATUS;
typedef HANDLE HGLOBAL, HLOCAL, GLOBALHANDLE, LOCALHANDLE;

#define DECLARE_HANDLE(name) \
    struct name##__ { \
        int unused; \
    }; \
    typedef struct name##__ *name
DECLARE_HANDLE(HINSTANCE);
DECLARE_HANDLE(HWND);
DECLARE_HANDLE(HKEY);
typedef HINSTANCE HMODULE;

typedef INT_PTR(WINAPI *FARPROC)();
typedef INT_PTR(WINAPI *NEARPROC)();
typedef INT_PTR(WINAPI *PROC)();

typedef struct _GUID {
    DWORD Data1;
    WORD Data2;
    WORD Data3;
    BYTE Data4[8];
} GUID, IID, CLSID;
#ifdef __cplusplus
#define REFGUID const GUID &
#define REFIID const IID &
#define REFCLSID const CLSID &
#else
#define REFGUID const GUID *
#define REFIID const IID *
#define REFCLSID const CLSID *
#endif

typedef struct tagPOINT {
    LONG x;
    LONG y;
} POINT, *PPOINT, *LPPOINT;

typedef struct tagRECT {
    LONG left;
    LONG top;
    LONG right;
    LONG bottom;
} RECT, *PRECT, *LPRECT;

#define MAX_PATH 260
#ifndef NULL
#define NULL 0
#endif

/* ---- Numbers for handles and pointers. */

#define HandleToLong(handle) ((LONG)(LONG_PTR)(handle))
#define HandleToUlong(handle) ((ULONG)(ULONG_PTR)(handle))
#define HandleToULong HandleToUlong
#define LongToHandle(number) ((HANDLE)(LONG_PTR)(LONG)(number))
#define UlongToHandle(number) ((HANDLE)(ULONG_PTR)(ULONG)(number))
#define ULongToHandle UlongToHandle
#define PtrToInt(pointer) ((INT)(INT_PTR)(pointer))
#define PtrToUint(pointer) ((UINT)(UINT_PTR)(pointer))
#define PtrToLong(pointer) ((LONG)(LONG_PTR)(pointer))
#define PtrToUlong(pointer) ((ULONG)(ULONG_PTR)(pointer))
#define IntToPtr(number) ((PVOID)(INT_PTR)(INT)(number))
#define UIntToPtr(number) ((PVOID)(UINT_PTR)(UINT)(number))
#define LongToPtr(number) ((PVOID)(LONG_PTR)(LONG)(number))
#define ULongToPtr(number) ((PVOID)(ULONG_PTR)(ULONG)(number))

/* ---- Parts of a word. */

#define LOBYTE(word) ((BYTE)((DWORD_PTR)(word) & 0xFF))
#define HIBYTE(word) ((BYTE)((DWORD_PTR)(word) >> 8 & 0xFF))
#define LOWORD(long_word) ((WORD)((DWORD_PTR)(long_word) & 0xFFFF))
#define HIWORD(long_word) ((WORD)((DWORD_PTR)(long_word) >> 16 & 0xFFFF))
#define MAKEWORD(low, high) ((WORD)((BYTE)(low) | (WORD)((WORD)(BYTE)(high) << 8)))
#define MAKELONG(low, high) ((LONG)((WORD)(low) | (DWORD)(WORD)(high) << 16))

/* (As elsewhere, C++ has std::min and std::max instead.) */
#if !defined NOMINMAX && !defined __cplusplus
#ifndef max
#define max(a, b) ((a) > (b) ? (a) : (b))
#endif
#ifndef min
#define min(a, b) ((a) < (b) ? (a) : (b))
#endif
#endif

#endif
