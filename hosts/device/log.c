/* Lines about what happens, as log.h tells. */
#define _POSIX_C_SOURCE 200809L
#include "log.h"

#include <stdarg.h>
#include <stdio.h>
#include <stdlib.h>
#include <time.h>

void log_line(const char *form, ...)
{
    char line[LOG_LINE], at[32] = "";
    time_t now = time(NULL);
    struct tm parts;
    va_list more;
    va_start(more, form);
    vsnprintf(line, sizeof line, form, more);
    va_end(more);
    if (getenv("JOURNAL_STREAM") == NULL && gmtime_r(&now, &parts) != NULL)
        strftime(at, sizeof at, "%Y-%m-%dT%H:%M:%SZ ", &parts);
    fprintf(stderr, "%s%s\n", at, line);
}
