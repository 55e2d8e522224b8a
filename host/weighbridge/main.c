/*
 * The weighbridge: takes up a plan, starts a lane, and obeys the commands on standard input, one a line (help lists them).
 *
 *     weighbridge PLAN < commands
 *
 * It ends with 0 at quit or at the end of input, with 1 when its answers cannot be written, with 2 when called wrongly.
 */
#include "commands.h"

#include <stdio.h>

enum { LINE_CHARS = 255 };
enum line { LINE_NONE, LINE_READ, LINE_BAD };

/* Reads one line to its end, however long it is. */
static enum line read_line(char text[LINE_CHARS + 1])
{
    size_t len = 0;
    bool fits = true;
    int c;
    while ((c = getchar()) != EOF && c != '\n') {
        fits = fits && len < LINE_CHARS && c != '\0';
        if (fits)
            text[len++] = (char)c;
    }
    text[len] = '\0';
    if (!fits)
        return LINE_BAD;
    return c == EOF && len == 0 ? LINE_NONE : LINE_READ;
}

int main(int argc, char **argv)
{
    static struct bridge bridge;
    char text[LINE_CHARS + 1];
    enum line line;
    if (argc != 2) {
        fputs("usage: weighbridge PLAN < commands\n", stderr);
        return 2;
    }
    setvbuf(stdout, NULL, _IOLBF, BUFSIZ);
    bridge_open(&bridge, argv[1]);
    while (!bridge.done && (line = read_line(text)) != LINE_NONE) {
        if (line == LINE_READ)
            bridge_obey(&bridge, text);
        else
            printf("line passed over: it has more than %d characters or a zero byte\n", LINE_CHARS);
    }
    return fflush(stdout) != 0 || ferror(stdout) ? 1 : 0;
}
