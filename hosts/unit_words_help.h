/* In words: the help by subject and by command, and the end. A part of unit_words.h. */
#ifndef UNIT_WORDS_HELP_H
#define UNIT_WORDS_HELP_H

static bool say_quit(talk *t, char **words, size_t count, route said)
{
    (void)words, (void)count, (void)said;
    t->over = true;
    return true;
}

/* The parts of the help that tell of words, by their headings. */
static const char *const subjects[] = { "REQUESTS", "CONNECTIONS", "SHEETS", "VERSIONS", "TRACES", "VALUES", "WORDS" };
enum { SUBJECTS = sizeof subjects / sizeof subjects[0] };

static size_t section_of(const char *heading)
{
    for (size_t i = 0; i < sizeof help / sizeof help[0]; i++)
        if (strcmp(help[i], heading) == 0)
            return i + 1;
    return sizeof help / sizeof help[0];
}

/* A line of a section, NULL behind its end. */
static const char *help_line(size_t i)
{
    return i < sizeof help / sizeof help[0] && (help[i][0] == ' ' || help[i][0] == '\0') ? help[i] : NULL;
}

static void help_subject(const char *heading)
{
    for (size_t i = section_of(heading); help_line(i) != NULL; i++)
        if (help_line(i)[0] != '\0' || (help_line(i + 1) != NULL))
            puts(help_line(i));
}

/* Whether a line of the help is a term that begins with a word. */
static bool is_term(const char *line, const char *word)
{
    size_t length = strlen(word);
    return strncmp(line, "    ", 4) == 0 && strncmp(line + 4, word, length) == 0 && (line[4 + length] == ' ' || line[4 + length] == '\0');
}

static bool is_text(const char *line)
{
    return line != NULL && strncmp(line, "        ", 8) == 0;
}

/* The terms of all subjects that begin with a word, those that share a text with one, and the text; whether there are any. */
static bool help_word(const char *word)
{
    bool any = false;
    for (size_t s = 0; s < SUBJECTS; s++)
        for (size_t i = section_of(subjects[s]); help_line(i) != NULL;) {
            size_t end = i;
            bool mine = false;
            while (help_line(end) != NULL && help_line(end)[0] != '\0' && !is_text(help_line(end)))
                mine = is_term(help_line(end++), word) || mine;
            bool terms = is_text(help_line(end));
            while (is_text(help_line(end)))
                end++;
            end = end == i ? i + 1 : end;
            for (; i < end; i++)
                if (mine && terms)
                    puts(help_line(i));
            any = any || (mine && terms);
        }
    return any;
}

static const char *near_word(const char *word);

static bool say_help(talk *t, char **words, size_t count, route said)
{
    char heading[16] = "";
    (void)t, (void)said;
    if (count == 0) {
        help_subject("WORDS");
        return true;
    }
    for (size_t i = 0; i + 1 < sizeof heading && words[0][i] != '\0'; i++)
        heading[i] = (char)('a' <= words[0][i] && words[0][i] <= 'z' ? words[0][i] - 32 : words[0][i]);
    for (size_t s = 0; s < SUBJECTS; s++)
        if (strcmp(subjects[s], heading) == 0) {
            help_subject(heading);
            return true;
        }
    const char *near = near_word(words[0]);
    return help_word(words[0]) ||
           err("no help of \"%s\"%s%s; help tells the subjects", shown(words[0]), *near == '\0' ? "" : ", perhaps ", near);
}

#endif
