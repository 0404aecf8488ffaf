/* SPDX-License-Identifier: MIT OR Apache-2.0 */
/* With -fshort-wchar a WCHAR has 16 bits, as on Windows: then the calls with wide text are those that take it so. (Text that a program makes itself,
 * as UTF-16, is else misread.) */
#ifndef NTWIN_UTF16_H
#define NTWIN_UTF16_H

#if __SIZEOF_WCHAR_T__ == 2
#pragma redefine_extname CreateEventW ntwin_utf16_CreateEventW
#pragma redefine_extname CreateEventExW ntwin_utf16_CreateEventExW
#pragma redefine_extname CreateSemaphoreW ntwin_utf16_CreateSemaphoreW
#pragma redefine_extname CreateSemaphoreExW ntwin_utf16_CreateSemaphoreExW
#pragma redefine_extname CreateMutexW ntwin_utf16_CreateMutexW
#pragma redefine_extname CreateMutexExW ntwin_utf16_CreateMutexExW
#pragma redefine_extname CreateWaitableTimerW ntwin_utf16_CreateWaitableTimerW
#pragma redefine_extname CreateWaitableTimerExW ntwin_utf16_CreateWaitableTimerExW
#pragma redefine_extname OpenEventW ntwin_utf16_OpenEventW
#pragma redefine_extname OpenSemaphoreW ntwin_utf16_OpenSemaphoreW
#pragma redefine_extname OpenMutexW ntwin_utf16_OpenMutexW
#pragma redefine_extname OpenWaitableTimerW ntwin_utf16_OpenWaitableTimerW
#pragma redefine_extname MultiByteToWideChar ntwin_utf16_MultiByteToWideChar
#pragma redefine_extname WideCharToMultiByte ntwin_utf16_WideCharToMultiByte
#pragma redefine_extname FormatMessageW ntwin_utf16_FormatMessageW
#pragma redefine_extname SetThreadDescription ntwin_utf16_SetThreadDescription
#pragma redefine_extname GetThreadDescription ntwin_utf16_GetThreadDescription
#pragma redefine_extname OutputDebugStringW ntwin_utf16_OutputDebugStringW
#pragma redefine_extname LoadLibraryW ntwin_utf16_LoadLibraryW
#pragma redefine_extname LoadLibraryExW ntwin_utf16_LoadLibraryExW
#pragma redefine_extname GetModuleHandleW ntwin_utf16_GetModuleHandleW
#pragma redefine_extname GetModuleHandleExW ntwin_utf16_GetModuleHandleExW
#pragma redefine_extname GetModuleFileNameW ntwin_utf16_GetModuleFileNameW
#endif

#endif
