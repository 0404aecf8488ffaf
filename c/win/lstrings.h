/* SPDX-License-Identifier: MIT OR Apache-2.0 */
/* lstrlen and its like, for CHAR and for WCHAR of either size. They compare by the numbers of characters, which have
 * no sign, and only ASCII's without case. */
#ifndef NTWIN_LSTRINGS_H
#define NTWIN_LSTRINGS_H

#include "winnt.h"

#define NTWIN_TEXT_CALL static __inline__ __attribute__((__unused__))
#define NTWIN_LOWER(letter) ((letter) >= 'A' && (letter) <= 'Z' ? (letter) + ('a' - 'A') : (letter))

/* (A null text has no length, and is copied and compared as an empty one; a null place is answered.) */
#define NTWIN_TEXT_CALLS(type, number, length_of, copy, copy_up_to, append, compare, compare_without_case) \
    NTWIN_TEXT_CALL int length_of(type const *text) \
    { \
        int length = 0; \
        while (text != NULL && text[length] != 0) \
            length++; \
        return length; \
    } \
    NTWIN_TEXT_CALL type *copy_up_to(type *to, type const *text, int room) \
    { \
        int i = 0; \
        if (to == NULL || room <= 0) \
            return to; \
        for (; text != NULL && i < room - 1 && text[i] != 0; i++) \
            to[i] = text[i]; \
        to[i] = 0; \
        return to; \
    } \
    NTWIN_TEXT_CALL type *copy(type *to, type const *text) \
    { \
        return copy_up_to(to, text, INT32_MAX); \
    } \
    NTWIN_TEXT_CALL type *append(type *to, type const *text) \
    { \
        if (to != NULL) \
            copy(to + length_of(to), text); \
        return to; \
    } \
    NTWIN_TEXT_CALL int compare(type const *one, type const *other) \
    { \
        int i = 0; \
        if (one == NULL || other == NULL) \
            return (one != NULL) - (other != NULL); \
        while (one[i] != 0 && one[i] == other[i]) \
            i++; \
        return ((number)one[i] > (number)other[i]) - ((number)one[i] < (number)other[i]); \
    } \
    NTWIN_TEXT_CALL int compare_without_case(type const *one, type const *other) \
    { \
        int i = 0; \
        if (one == NULL || other == NULL) \
            return (one != NULL) - (other != NULL); \
        while (one[i] != 0 && NTWIN_LOWER(one[i]) == NTWIN_LOWER(other[i])) \
            i++; \
        return ((number)NTWIN_LOWER(one[i]) > (number)NTWIN_LOWER(other[i])) - ((number)NTWIN_LOWER(one[i]) < (number)NTWIN_LOWER(other[i])); \
    }

NTWIN_TEXT_CALLS(CHAR, BYTE, lstrlenA, lstrcpyA, lstrcpynA, lstrcatA, lstrcmpA, lstrcmpiA)
NTWIN_TEXT_CALLS(WCHAR, ULONG, lstrlenW, lstrcpyW, lstrcpynW, lstrcatW, lstrcmpW, lstrcmpiW)

#ifdef UNICODE
#define lstrlen lstrlenW
#define lstrcpy lstrcpyW
#define lstrcpyn lstrcpynW
#define lstrcat lstrcatW
#define lstrcmp lstrcmpW
#define lstrcmpi lstrcmpiW
#else
#define lstrlen lstrlenA
#define lstrcpy lstrcpyA
#define lstrcpyn lstrcpynA
#define lstrcat lstrcatA
#define lstrcmp lstrcmpA
#define lstrcmpi lstrcmpiA
#endif

#endif
