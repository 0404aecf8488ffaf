/* What a script costs where nothing is dispatched: reads lines, parts their words, and prints as many lines as a
   transcript has: one for each line but the first, and one more after each `set`. */
#define _GNU_SOURCE
#include <stdio.h>
#include <stdlib.h>
#include <string.h>

int main(int count, char **words)
{
    if (count != 2)
        return 2;
    FILE *file = fopen(words[1], "r");
    if (!file)
        return 1;
    char *line = NULL;
    size_t room = 0;
    unsigned long number = 0;
    unsigned long parted = 0;
    while (getline(&line, &room, file) >= 0) {
        number++;
        char *rest = NULL;
        int sets = 0;
        int at = 0;
        line[strcspn(line, ";\r\n")] = 0;
        for (char *word = strtok_r(line, " \t", &rest); word; word = strtok_r(NULL, " \t", &rest)) {
            if (at == 1 && strcmp(word, "set") == 0)
                sets = 1;
            at++;
        }
        parted += at;
        if (at && number > 1)
            printf("%lu: ok\n", number);
        if (sets)
            printf("%lu: t%lu status 0x%08lX\n", number, number % 2, 0UL);
    }
    free(line);
    fclose(file);
    printf("end: %lu words\n", parted);
    return fflush(stdout) ? 1 : 0;
}
