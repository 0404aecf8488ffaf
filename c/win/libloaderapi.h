/* SPDX-License-Identifier: MIT OR Apache-2.0 */
/* Modules: the program, libraries of this system by their file names, and one with the calls of these headers, which kernel32, kernelbase, ntdll and
 * winmm are here. */
#ifndef NTWIN_LIBLOADERAPI_H
#define NTWIN_LIBLOADERAPI_H

#include "winnt.h"

#ifdef __cplusplus
extern "C" {
#endif

#define DONT_RESOLVE_DLL_REFERENCES 0x00000001u
#define LOAD_LIBRARY_AS_DATAFILE 0x00000002u
#define LOAD_WITH_ALTERED_SEARCH_PATH 0x00000008u
#define LOAD_IGNORE_CODE_AUTHZ_LEVEL 0x00000010u
#define LOAD_LIBRARY_AS_IMAGE_RESOURCE 0x00000020u
#define LOAD_LIBRARY_AS_DATAFILE_EXCLUSIVE 0x00000040u
#define LOAD_LIBRARY_REQUIRE_SIGNED_TARGET 0x00000080u
#define LOAD_LIBRARY_SEARCH_DLL_LOAD_DIR 0x00000100u
#define LOAD_LIBRARY_SEARCH_APPLICATION_DIR 0x00000200u
#define LOAD_LIBRARY_SEARCH_USER_DIRS 0x00000400u
#define LOAD_LIBRARY_SEARCH_SYSTEM32 0x00000800u
#define LOAD_LIBRARY_SEARCH_DEFAULT_DIRS 0x00001000u

#define GET_MODULE_HANDLE_EX_FLAG_PIN 0x00000001u
#define GET_MODULE_HANDLE_EX_FLAG_UNCHANGED_REFCOUNT 0x00000002u
#define GET_MODULE_HANDLE_EX_FLAG_FROM_ADDRESS 0x00000004u

/* A name without a slash is looked for where the system's loader looks; flags that say where to look change nothing, and one that would have a
 * library's data alone fails with ERROR_NOT_SUPPORTED. ERROR_MOD_NOT_FOUND, or ERROR_BAD_EXE_FORMAT where the file is there and can't be loaded. */
HMODULE LoadLibraryA(LPCSTR name);
HMODULE LoadLibraryW(LPCWSTR name);
HMODULE LoadLibraryExA(LPCSTR name, HANDLE file, DWORD flags);
HMODULE LoadLibraryExW(LPCWSTR name, HANDLE file, DWORD flags);
BOOL FreeLibrary(HMODULE module);
void FreeLibraryAndExitThread(HMODULE module, DWORD code) __attribute__((noreturn));

/* A module that is in the process; for null the program. */
HMODULE GetModuleHandleA(LPCSTR name);
HMODULE GetModuleHandleW(LPCWSTR name);
BOOL GetModuleHandleExA(DWORD flags, LPCSTR name, HMODULE *module);
BOOL GetModuleHandleExW(DWORD flags, LPCWSTR name, HMODULE *module);
/* A module's whole path. Answers its length; or `size`, with ERROR_INSUFFICIENT_BUFFER, where it is cut off. */
DWORD GetModuleFileNameA(HMODULE module, LPSTR path, DWORD size);
DWORD GetModuleFileNameW(HMODULE module, LPWSTR path, DWORD size);
/* By its name; none has a number. */
FARPROC GetProcAddress(HMODULE module, LPCSTR name);
/* No library learns that a thread begins or ends: nothing changes. */
BOOL DisableThreadLibraryCalls(HMODULE module);

#ifdef UNICODE
#define LoadLibrary LoadLibraryW
#define LoadLibraryEx LoadLibraryExW
#define GetModuleHandle GetModuleHandleW
#define GetModuleHandleEx GetModuleHandleExW
#define GetModuleFileName GetModuleFileNameW
#else
#define LoadLibrary LoadLibraryA
#define LoadLibraryEx LoadLibraryExA
#define GetModuleHandle GetModuleHandleA
#define GetModuleHandleEx GetModuleHandleExA
#define GetModuleFileName GetModuleFileNameA
#endif

#ifdef __cplusplus
}
#endif

#endif
