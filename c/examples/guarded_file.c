/* Four threads write records of three lines into one file. A mutex keeps the lines of a record together. The last thread ends while it
 * owns the mutex, in the middle of a record: the next owner learns that by WAIT_ABANDONED, and mends the file before it goes on. */
#include <windows.h>

#include <stdio.h>

enum { WRITERS = 4, RECORDS = 50, LINES = 3 };

static HANDLE MUTEX;
static FILE *RECORDS_FILE;
static long WHOLE; /* the end of the last whole record */

static DWORD WINAPI write_records(LPVOID unused)
{
    (void)unused;
    for (int record = 0; record < RECORDS; record++) {
        if (WaitForSingleObject(MUTEX, INFINITE) != WAIT_OBJECT_0)
            return 1;
        for (int line = 0; line < LINES; line++)
            fprintf(RECORDS_FILE, "%d\n", line);
        WHOLE = ftell(RECORDS_FILE);
        ReleaseMutex(MUTEX);
    }
    return 0;
}

static DWORD WINAPI write_half_a_record(LPVOID unused)
{
    (void)unused;
    WaitForSingleObject(MUTEX, INFINITE);
    fprintf(RECORDS_FILE, "%d\n", 0);
    return 0;
}

static int whole_records(void)
{
    int number, count = 0;
    rewind(RECORDS_FILE);
    while (fscanf(RECORDS_FILE, "%d", &number) == 1) {
        if (number != count % LINES)
            return -1;
        count++;
    }
    return count / LINES;
}

int main(void)
{
    HANDLE writers[WRITERS], last;

    MUTEX = CreateMutex(NULL, FALSE, NULL);
    RECORDS_FILE = tmpfile();
    if (MUTEX == NULL || RECORDS_FILE == NULL)
        return 1;
    for (int i = 0; i < WRITERS; i++)
        writers[i] = CreateThread(NULL, 0, write_records, NULL, 0, NULL);
    WaitForMultipleObjects(WRITERS, writers, TRUE, INFINITE);
    last = CreateThread(NULL, 0, write_half_a_record, NULL, 0, NULL);
    WaitForSingleObject(last, INFINITE);

    if (WaitForSingleObject(MUTEX, INFINITE) == WAIT_ABANDONED) {
        printf("the mutex was abandoned: half a record is taken back\n");
        fflush(RECORDS_FILE);
        fseek(RECORDS_FILE, WHOLE, SEEK_SET);
        for (int line = 0; line < LINES; line++)
            fprintf(RECORDS_FILE, "%d\n", line);
    }
    printf("%d whole records\n", whole_records());
    ReleaseMutex(MUTEX);
    fclose(RECORDS_FILE);
    return 0;
}
