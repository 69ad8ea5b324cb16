/*
 * The desk unit's store of versions: store HEX, save, restore C NUMBER, remove NUMBER, versions. A part of unit.c, which includes
 * it behind the device.
 */
#ifndef UNIT_STORE_H
#define UNIT_STORE_H

/* The number of a version; one that a size can't hold counts as the largest it can, which nobody keeps. */
static bool take_version(const char *word, size_t *version)
{
    uint64_t number;
    if (!take_number("NUMBER", word, &number))
        return false;
    *version = number < SIZE_MAX ? (size_t)number : SIZE_MAX;
    return true;
}

static bool do_store(device *d, char **words, size_t count)
{
    run store;
    (void)count;
    if (!take_bytes("HEX", words[0], &store))
        return false;
    set_run(&d->store, store);
    uint8_t rule = kelindap_store_check(d->store.bytes, d->store.length);
    if (rule == 0)
        puts("OK");
    else
        printf("%d\n", rule);
    return true;
}

static bool do_save(device *d, char **words, size_t count)
{
    (void)words, (void)count;
    kelindap_saved saved = kelindap_save(d->sheet.bytes, d->sheet.length, d->store.bytes, d->store.length);
    printf("%d %d", saved.outcome, saved.number);
    put_rest(d->store);
    return true;
}

static bool do_restore(device *d, char **words, size_t count)
{
    uint8_t c;
    size_t version;
    (void)count;
    if (!take_connection(words[0], &c) || !take_version(words[1], &version))
        return false;
    printf("%d", kelindap_restore(d->link.sessions, c, d->sheet.bytes, d->sheet.length, d->store.bytes, d->store.length, version));
    put_rest(d->sheet);
    return true;
}

static bool do_remove(device *d, char **words, size_t count)
{
    size_t version;
    (void)count;
    if (!take_version(words[0], &version))
        return false;
    printf("%d", kelindap_remove(d->store.bytes, d->store.length, version));
    put_rest(d->store);
    return true;
}

/* How many versions are kept, and of each its number and its length. */
static bool do_versions(device *d, char **words, size_t count)
{
    kelindap_listed kept[KELINDAP_STORE_VERSIONS];
    size_t n = 0;
    (void)words, (void)count;
    while (n < KELINDAP_STORE_VERSIONS && (kept[n] = kelindap_kept(d->store.bytes, d->store.length, n)).number != 0)
        n++;
    printf("%zu", n);
    for (size_t k = 0; k < n; k++)
        printf(" %d:%d", kept[k].number, kept[k].length);
    putchar('\n');
    return true;
}

#endif
