/* Prints tables, in columns for a terminal or as Markdown for docs/PERFORMANCE.md. Relies on nothing but the C library. */
#include "peers.h"

#include <stdarg.h>
#include <stdio.h>

bool markdown = false;

void title(const char *format, ...) {
    va_list list;
    va_start(list, format);
    fputs(markdown ? "\n### " : "\n", stdout);
    vprintf(format, list);
    fputs(markdown ? "\n\n" : "\n", stdout);
    va_end(list);
}

void table_row(const char *const *cells, size_t count) {
    for (size_t i = 0; i < count; i++)
        if (markdown)
            printf("| %s ", cells[i]);
        else
            printf(i == 0 ? "%-30s" : "%17s", cells[i]);
    puts(markdown ? "|" : "");
    fflush(stdout);
}

void table_head(const char *const *cells, size_t count) {
    table_row(cells, count);
    if (!markdown)
        return;
    for (size_t i = 0; i < count; i++)
        fputs(i == 0 ? "|---|" : "---:|", stdout);
    puts("");
}

/* Three figures at most, a dash for none. The text holds until some calls later. */
const char *figure(double value) {
    static char texts[16][24];
    static size_t at;
    char *text = texts[at++ % 16];
    if (value <= 0)
        return "-";
    snprintf(text, sizeof texts[0], "%.*f", value < 10 ? 2 : value < 100 ? 1 : 0, value);
    return text;
}
