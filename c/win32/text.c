/* SPDX-License-Identifier: MIT OR Apache-2.0 */
/* ---- Text in UTF-8 and in WCHAR, a character each. */
#include "internal.h"

#define NO_CHARACTER 0xFFFDu /* in the place of what is none */

static bool is_page(UINT page)
{
    return page == CP_UTF8 || page == CP_ACP || page == CP_OEMCP || page == CP_THREAD_ACP;
}

static bool is_character(uint32_t point)
{
    return point < 0xD800 || (point > 0xDFFF && point <= 0x10FFFF);
}

/* Reads a character of the text before `end`, and goes past it. Where there is none, goes past as much as could not be the next one's begin. */
static bool read_character(const unsigned char **at, const unsigned char *end, uint32_t *point)
{
    const unsigned char first = *(*at)++;
    const unsigned more = first < 0xC2 ? 0 : first < 0xE0 ? 1 : first < 0xF0 ? 2 : first < 0xF5 ? 3 : 0;
    static const uint32_t least[] = { 0, 0x80, 0x800, 0x10000 };
    *point = first;
    if (first < 0x80)
        return true;
    uint32_t found = first & (0x3Fu >> more);
    for (unsigned i = 0; i < more; i++) {
        if (*at == end || (**at & 0xC0) != 0x80)
            return false;
        found = found << 6 | (*(*at)++ & 0x3F);
    }
    *point = found;
    return more > 0 && found >= least[more] && is_character(found);
}

/* Writes the character's bytes; answers how many. */
static int write_character(unsigned char bytes[4], uint32_t point)
{
    if (point < 0x80) {
        bytes[0] = (unsigned char)point;
        return 1;
    }
    const int more = point < 0x800 ? 1 : point < 0x10000 ? 2 : 3;
    for (int i = more; i > 0; i--, point >>= 6)
        bytes[i] = 0x80 | (point & 0x3F);
    bytes[0] = (unsigned char)(0xFF00u >> (more + 1) | point);
    return more + 1;
}

/* Answers the count, or 0 where it does not fit. */
NTW_INTERNAL int counted(int64_t count, int size)
{
    if (count > INT_MAX || (size != 0 && count > size)) {
        ntw_fail(ERROR_INSUFFICIENT_BUFFER);
        return 0;
    }
    return (int)count;
}

int MultiByteToWideChar(UINT page, DWORD flags, LPCSTR text, int length, LPWSTR wide, int size)
{
    if (!is_page(page) || text == NULL || length == 0 || length < -1 || size < 0 || (size > 0 && wide == NULL)
        || (const void *)text == (const void *)wide) {
        ntw_fail(ERROR_INVALID_PARAMETER);
        return 0;
    }
    if ((flags & ~(MB_ERR_INVALID_CHARS | (page == CP_UTF8 ? 0 : MB_PRECOMPOSED))) != 0) {
        ntw_fail(ERROR_INVALID_FLAGS);
        return 0;
    }
    const unsigned char *at = (const unsigned char *)text, *end = at + (length < 0 ? strlen(text) + 1 : (size_t)length);
    int64_t count = 0;
    for (uint32_t point; at != end; count++) {
        if (!read_character(&at, end, &point)) {
            if ((flags & MB_ERR_INVALID_CHARS) != 0) {
                ntw_fail(ERROR_NO_UNICODE_TRANSLATION);
                return 0;
            }
            point = NO_CHARACTER;
        }
        if (count < size)
            wide[count] = (WCHAR)point;
    }
    return counted(count, size);
}

int WideCharToMultiByte(UINT page, DWORD flags, LPCWSTR wide, int length, LPSTR text, int size, LPCSTR other, BOOL *used_other)
{
    if (!is_page(page) || wide == NULL || length == 0 || length < -1 || size < 0 || (size > 0 && text == NULL)
        || (const void *)text == (const void *)wide || (page == CP_UTF8 && (other != NULL || used_other != NULL))) {
        ntw_fail(ERROR_INVALID_PARAMETER);
        return 0;
    }
    if ((flags & ~(page == CP_UTF8 ? WC_ERR_INVALID_CHARS : WC_NO_BEST_FIT_CHARS)) != 0) {
        ntw_fail(ERROR_INVALID_FLAGS);
        return 0;
    }
    const size_t characters = length < 0 ? wcslen(wide) + 1 : (size_t)length;
    int64_t count = 0;
    if (used_other != NULL)
        *used_other = FALSE;
    for (size_t i = 0; i < characters; i++) {
        unsigned char bytes[4];
        uint32_t point = (uint32_t)wide[i];
        if (!is_character(point)) {
            if ((flags & WC_ERR_INVALID_CHARS) != 0) {
                ntw_fail(ERROR_NO_UNICODE_TRANSLATION);
                return 0;
            }
            point = NO_CHARACTER;
            if (used_other != NULL)
                *used_other = TRUE;
        }
        const int more = write_character(bytes, point);
        if (count + more <= size)
            memcpy(text + count, bytes, (size_t)more);
        count += more;
    }
    return counted(count, size);
}
