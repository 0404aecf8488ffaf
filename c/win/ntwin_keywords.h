/* SPDX-License-Identifier: MIT OR Apache-2.0 */
/* What Microsoft's compilers know with no header: keywords, and on which machine a program will run. A source that uses such a word before it includes
 * a header of Windows is compiled with `-include` of this one. */
#ifndef NTWIN_KEYWORDS_H
#define NTWIN_KEYWORDS_H

/* ---- The machine, as the headers of mingw have it. */

#if defined _WIN32 && defined __LP64__
#ifndef _WIN64
#define _WIN64 1
#endif
#if defined __x86_64__ && !defined _M_X64
#define _M_X64 100
#endif
#if defined __x86_64__ && !defined _M_AMD64
#define _M_AMD64 100
#endif
#if defined __aarch64__ && !defined _M_ARM64
#define _M_ARM64 1
#endif
#endif

/* ---- Conventions of calls: there is one. */

#define __stdcall
#define __cdecl
#define __fastcall
#define __thiscall
#define __vectorcall
#define __clrcall
#define _stdcall
#define _cdecl
#define _fastcall

/* ---- Declarations. `__declspec(align(16))` and the like are attributes; what a library imports and exports needs no word. */

#define __declspec(word) NTWIN_DECLSPEC_##word
#define _declspec(word) NTWIN_DECLSPEC_##word
#define NTWIN_DECLSPEC_
#define NTWIN_DECLSPEC_align(bytes) __attribute__((__aligned__(bytes)))
#define NTWIN_DECLSPEC_allocate(section) __attribute__((__section__(section)))
#define NTWIN_DECLSPEC_allocator
#define NTWIN_DECLSPEC_code_seg(section)
#define NTWIN_DECLSPEC_deprecated __attribute__((__deprecated__))
#define NTWIN_DECLSPEC_dllexport
#define NTWIN_DECLSPEC_dllimport
#define NTWIN_DECLSPEC_guard(what)
#define NTWIN_DECLSPEC_noalias
#define NTWIN_DECLSPEC_noinline __attribute__((__noinline__))
#define NTWIN_DECLSPEC_noreturn __attribute__((__noreturn__))
#define NTWIN_DECLSPEC_nothrow __attribute__((__nothrow__))
#define NTWIN_DECLSPEC_novtable
#define NTWIN_DECLSPEC_restrict __attribute__((__malloc__))
#define NTWIN_DECLSPEC_safebuffers
#define NTWIN_DECLSPEC_selectany __attribute__((__weak__))
#define NTWIN_DECLSPEC_uuid(id)
#if defined __cplusplus && __cplusplus >= 201103L
#define NTWIN_DECLSPEC_thread thread_local
#elif !defined __cplusplus && defined __STDC_VERSION__ && __STDC_VERSION__ >= 201112L
#define NTWIN_DECLSPEC_thread _Thread_local
#else
#define NTWIN_DECLSPEC_thread __thread
#endif

#define _inline __inline__
#define __forceinline __inline__ __attribute__((__always_inline__))
#define _forceinline __forceinline
#define __assume(condition) ((condition) ? (void)0 : __builtin_unreachable())

/* ---- Types and pointers. */

#define __int8 char
#define __int16 short
#define __int32 int
#define __int64 long
#define _int64 long
#define __ptr32
#define __ptr64
#define __unaligned
#define __w64

#endif
