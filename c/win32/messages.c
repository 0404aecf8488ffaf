/* SPDX-License-Identifier: MIT OR Apache-2.0 */
/* ---- The texts of errors: of those that calls here answer, and that programs name. */
#include "internal.h"

static const struct {
    DWORD error;
    const char *text;
} messages[] = {
    { ERROR_SUCCESS, "The operation completed successfully." },
    { ERROR_INVALID_FUNCTION, "Incorrect function." },
    { ERROR_FILE_NOT_FOUND, "The system cannot find the file specified." },
    { ERROR_PATH_NOT_FOUND, "The system cannot find the path specified." },
    { ERROR_ACCESS_DENIED, "Access is denied." },
    { ERROR_INVALID_HANDLE, "The handle is invalid." },
    { ERROR_NOT_ENOUGH_MEMORY, "Not enough memory resources are available to process this command." },
    { ERROR_OUTOFMEMORY, "Not enough memory resources are available to complete this operation." },
    { ERROR_GEN_FAILURE, "A device attached to the system is not functioning." },
    { ERROR_NOT_SUPPORTED, "The request is not supported." },
    { ERROR_INVALID_PARAMETER, "The parameter is incorrect." },
    { ERROR_CALL_NOT_IMPLEMENTED, "This function is not supported on this system." },
    { ERROR_SEM_TIMEOUT, "The semaphore timeout period has expired." },
    { ERROR_INSUFFICIENT_BUFFER, "The data area passed to a system call is too small." },
    { ERROR_MOD_NOT_FOUND, "The specified module could not be found." },
    { ERROR_PROC_NOT_FOUND, "The specified procedure could not be found." },
    { ERROR_SIGNAL_REFUSED, "The recipient process has refused the signal." },
    { ERROR_BUSY, "The requested resource is in use." },
    { ERROR_INVALID_ORDINAL, "The operating system cannot run %1." },
    { ERROR_ALREADY_EXISTS, "Cannot create a file when that file already exists." },
    { ERROR_BAD_EXE_FORMAT, "%1 is not a valid Win32 application." },
    { ERROR_FILENAME_EXCED_RANGE, "The filename or extension is too long." },
    { WAIT_TIMEOUT, "The wait operation timed out." },
    { ERROR_NO_MORE_ITEMS, "No more data is available." },
    { ERROR_NOT_OWNER, "Attempt to release mutex not owned by caller." },
    { ERROR_TOO_MANY_POSTS, "Too many posts were made to a semaphore." },
    { ERROR_MR_MID_NOT_FOUND, "The system cannot find message text for message number 0x%1 in the message file for %2." },
    { ERROR_PROCESS_MODE_ALREADY_BACKGROUND, "The process is already in background processing mode." },
    { ERROR_PROCESS_MODE_NOT_BACKGROUND, "The process is not in background processing mode." },
    { ERROR_MUTANT_LIMIT_EXCEEDED,
      "An attempt was made to acquire a mutant such that its maximum count would have been exceeded." },
    { ERROR_OPERATION_ABORTED, "The I/O operation has been aborted because of either a thread exit or an application request." },
    { ERROR_IO_PENDING, "Overlapped I/O operation is in progress." },
    { ERROR_INVALID_FLAGS, "Invalid flags." },
    { ERROR_NO_UNICODE_TRANSLATION, "No mapping for the Unicode character exists in the target multi-byte code page." },
    { ERROR_NOT_FOUND, "Element not found." },
    { ERROR_NO_SYSTEM_RESOURCES, "Insufficient system resources exist to complete the requested service." },
    { ERROR_TIMEOUT, "This operation returned because the timeout period expired." },
};

/* The text of an error, as the system has it; null where there is none here. */
static const char *text_of(DWORD error)
{
    for (size_t i = 0; i < ARRAYSIZE(messages); i++)
        if (messages[i].error == error)
            return messages[i].text;
    return NULL;
}

/* What a message asks for: its text, or null, with the last error set. It is the system's, or the program's own with no inserts. */
static const char *text_asked(DWORD flags, LPCVOID source, DWORD error)
{
    const DWORD known = FORMAT_MESSAGE_ALLOCATE_BUFFER | FORMAT_MESSAGE_IGNORE_INSERTS | FORMAT_MESSAGE_FROM_STRING
        | FORMAT_MESSAGE_FROM_SYSTEM | FORMAT_MESSAGE_ARGUMENT_ARRAY | FORMAT_MESSAGE_MAX_WIDTH_MASK;
    const char *text = NULL;
    if ((flags & ~known) != 0 || (flags & (FORMAT_MESSAGE_FROM_STRING | FORMAT_MESSAGE_FROM_SYSTEM)) == 0) {
        ntw_fail(ERROR_INVALID_PARAMETER);
        return NULL;
    }
    if ((flags & FORMAT_MESSAGE_FROM_STRING) != 0) {
        if (source == NULL || (flags & FORMAT_MESSAGE_IGNORE_INSERTS) == 0)
            ntw_fail(source == NULL ? ERROR_INVALID_PARAMETER : ERROR_NOT_SUPPORTED);
        else
            text = source;
    } else {
        text = text_of(error);
        if (text == NULL)
            ntw_fail(ERROR_MR_MID_NOT_FOUND);
    }
    return text;
}

/* What an escape stands for in a text of the program's own, with this letter after the %; null where it is no such one, as those of inserts. */
static const char *text_of_escape(char letter)
{
    static const char *const texts[] = { ['n'] = "\r\n", ['r'] = "\r", ['t'] = "\t", ['b'] = " " };
    return (unsigned char)letter < ARRAYSIZE(texts) ? texts[(unsigned char)letter] : NULL;
}

/* Writes a text of the program's own, which %0 ends. (None gets longer.) */
static void write_own_text(char *to, const char *text)
{
    for (; *text != 0 && strncmp(text, "%0", 2) != 0; text++) {
        const char *escape = *text == '%' ? text_of_escape(text[1]) : NULL;
        if (escape != NULL) {
            to = stpcpy(to, escape);
            text++;
            continue;
        }
        *to++ = *text;
        if (*text == '%' && text[1] != 0)
            *to++ = *++text;
    }
    *to = 0;
}

/* The message, which the caller frees: a text of the system has its line's end, which is a blank where lines are not to be broken. Null, with the
 * last error set, where memory is refused. */
static char *make_message(DWORD flags, const char *text)
{
    char *made = malloc(strlen(text) + 3);
    if (made == NULL)
        ntw_fail(ERROR_NOT_ENOUGH_MEMORY);
    else if ((flags & FORMAT_MESSAGE_FROM_STRING) != 0)
        write_own_text(made, text);
    else
        strcpy(stpcpy(made, text), (flags & FORMAT_MESSAGE_MAX_WIDTH_MASK) != 0 ? " " : "\r\n");
    return made;
}

/* The place for a message that takes this room, in letters of this size: the buffer, or one that is made, whose address is put there. Null, with the
 * last error set, where there is none. */
static void *place_of_message(DWORD flags, void *buffer, DWORD size, DWORD room, size_t bytes)
{
    void *made = buffer;
    if ((flags & FORMAT_MESSAGE_ALLOCATE_BUFFER) == 0) {
        if (size < room)
            ntw_fail(ERROR_INSUFFICIENT_BUFFER);
        return size < room ? NULL : buffer;
    }
    made = malloc((size > room ? size : room) * bytes);
    memcpy(buffer, &made, sizeof made);
    if (made == NULL)
        ntw_fail(ERROR_NOT_ENOUGH_MEMORY);
    return made;
}

/* The message that a call asks for, which the caller frees; null, with the last error set, where there is none. Where the call makes a buffer, there
 * has to be a place for its address, which is null until then. */
static char *message_asked(DWORD flags, LPCVOID source, DWORD error, void *buffer)
{
    if ((flags & FORMAT_MESSAGE_ALLOCATE_BUFFER) != 0) {
        if (buffer == NULL) {
            ntw_fail(ERROR_NOT_ENOUGH_MEMORY);
            return NULL;
        }
        memcpy(buffer, &(void *){ NULL }, sizeof(void *));
    }
    const char *text = text_asked(flags, source, error);
    return text != NULL ? make_message(flags, text) : NULL;
}

DWORD FormatMessageA(DWORD flags, LPCVOID source, DWORD error, DWORD language, LPSTR buffer, DWORD size, va_list *arguments)
{
    char *message = message_asked(flags, source, error, buffer);
    (void)language;
    (void)arguments;
    if (message == NULL)
        return 0;
    const DWORD length = (DWORD)strlen(message);
    char *made = place_of_message(flags, buffer, size, length + 1, sizeof *made);
    if (made != NULL)
        memcpy(made, message, length + 1);
    free(message);
    return made != NULL ? length : 0;
}

/* The same in letters of other sizes. (A text of the program's own is not taken in these forms.) */
NTW_INTERNAL DWORD format_message(DWORD flags, DWORD error, void *buffer, DWORD size, size_t bytes)
{
    char *message = (flags & FORMAT_MESSAGE_FROM_STRING) == 0 ? message_asked(flags, NULL, error, buffer) : NULL;
    if (message == NULL)
        return (flags & FORMAT_MESSAGE_FROM_STRING) != 0 ? (DWORD)ntw_fail(ERROR_NOT_SUPPORTED) : 0;
    const DWORD length = (DWORD)strlen(message);
    void *made = place_of_message(flags, buffer, size, length + 1, bytes);
    /* (The system's texts are in ASCII.) */
    for (DWORD i = 0; made != NULL && i <= length; i++) {
        if (bytes == sizeof(uint16_t))
            ((uint16_t *)made)[i] = (uint16_t)message[i];
        else
            ((WCHAR *)made)[i] = message[i];
    }
    free(message);
    return made != NULL ? length : 0;
}

DWORD FormatMessageW(DWORD flags, LPCVOID source, DWORD error, DWORD language, LPWSTR buffer, DWORD size, va_list *arguments)
{
    (void)source;
    (void)language;
    (void)arguments;
    return format_message(flags, error, buffer, size, sizeof *buffer);
}
