/* The word nearest to one that there is not. A part of unit.c. */
#ifndef UNIT_NEAR_H
#define UNIT_NEAR_H

/* A word that was said, the nearest that there is so far, and how far that is: one more than what still counts as near. */
typedef struct nearest {
    const char *word, *found;
    size_t best;
} nearest;

enum { LONGEST_NEAR = 24 };

static size_t least(size_t a, size_t b)
{
    return a < b ? a : b;
}

/* How many letters must be put in, left out, replaced or exchanged with their neighbour to make one word of the other. */
static size_t distance(const char *a, const char *b)
{
    size_t rows[LONGEST_NEAR + 1][LONGEST_NEAR + 1], m = strlen(a), n = strlen(b);
    if (m > LONGEST_NEAR || n > LONGEST_NEAR)
        return SIZE_MAX;
    for (size_t i = 0; i <= m; i++)
        for (size_t j = 0; j <= n; j++) {
            if (i == 0 || j == 0) {
                rows[i][j] = i + j;
                continue;
            }
            rows[i][j] = least(least(rows[i - 1][j], rows[i][j - 1]) + 1, rows[i - 1][j - 1] + (a[i - 1] != b[j - 1]));
            if (i > 1 && j > 1 && a[i - 1] == b[j - 2] && a[i - 2] == b[j - 1])
                rows[i][j] = least(rows[i][j], rows[i - 2][j - 2] + 1);
        }
    return rows[m][n];
}

/* Takes another word into account: of a short one a single letter may be wrong, of others two. */
static void look_near(nearest *n, const char *known)
{
    size_t far = distance(n->word, known);
    if (far < n->best && far <= (strlen(n->word) <= 3 ? 1u : 2u)) {
        n->best = far;
        n->found = known;
    }
}

#endif
