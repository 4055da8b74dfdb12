/* Answers each line of standard input by jb_answer_line, the line and the buffer each in memory of exactly its own size,
 * so that a tool that watches memory sees one byte too many. */
#include "jengubool.h"
#include <stdio.h>
#include <stdlib.h>
#include <string.h>

static size_t length_of(const uint8_t *answer)
{
    if (answer[2] != '0' || answer[3] != '0')
        return 8;
    return answer[1] == '2' ? 98 : 60;
}

int main(void)
{
    char *text = NULL;
    size_t room = 0;
    ssize_t got;
    while ((got = getline(&text, &room, stdin)) >= 0) {
        size_t n = (size_t)got;
        if (n > 0 && text[n - 1] == '\n')
            n--;
        uint8_t *line = malloc(n ? n : 1);
        uint8_t *out = malloc(98);
        if (line == NULL || out == NULL)
            return 1;
        memcpy(line, text, n);
        jb_answer_line(line, n, out, 98);
        fwrite(out, 1, length_of(out), stdout);
        putchar('\n');
        free(line);
        free(out);
    }
    free(text);
    return 0;
}
