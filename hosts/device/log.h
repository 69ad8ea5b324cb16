/*
 * Lines about what happens, for whoever runs the host: each connect, refusal and write, by meaning. No line shows a key. They go to
 * standard error, with the time in UTC where no journal adds it.
 */
#ifndef LOG_H
#define LOG_H

enum { LOG_LINE = 512 };

/* A line; no part of it comes from outside as a form. */
__attribute__((format(printf, 1, 2))) void log_line(const char *form, ...);

#endif
