/* In words: numbers, addresses and the way of a request, as they are said. A part of unit_words.h. */
#ifndef UNIT_WORDS_SAID_H
#define UNIT_WORDS_SAID_H

/* ---- what is said: numbers and addresses ---- */

/* A number, decimal or in hex, as 0100h or 0x0100. */
static bool take_any(const char *name, const char *word, uint64_t most, uint64_t *value)
{
    static const char hex[] = "0123456789abcdefABCDEF";
    bool zero = word[0] == '0' && (word[1] == 'x' || word[1] == 'X');
    const char *digits = zero ? word + 2 : word;
    size_t n = strspn(digits, hex);
    bool h = !zero && n > 0 && (digits[n] == 'h' || digits[n] == 'H') && digits[n + 1] == '\0';
    if (!zero && !h)
        return take_up_to(name, word, most, value);
    if (n == 0 || (zero && digits[n] != '\0'))
        return err("%s is no number: \"%s\"", name, shown(word));
    *value = 0;
    for (size_t i = 0; i < n; i++)
        *value = *value > UINT64_MAX >> 4 ? UINT64_MAX : *value << 4 | nibble(digits[i]);
    return *value <= most || err("%s is above %" PRIu64 ": \"%s\"", name, most, shown(word));
}

/* Parts of so many bits each, with a mark between them, such as 1/0/1 or 1.1.5; or the whole as one number. */
static bool take_parts(const char *name, char *word, char mark, const unsigned *bits, size_t count, uint16_t *value)
{
    uint64_t part, all = 0;
    char *at = word, one[48];
    snprintf(one, sizeof one, "a part of %s", name);
    if (strchr(word, mark) == NULL && count != 2) {
        if (!take_any(name, word, 65535, &all))
            return false;
        *value = (uint16_t)all;
        return true;
    }
    for (size_t i = 0; i < count; i++) {
        char *end = strchr(at, mark);
        if ((end == NULL) != (i + 1 == count))
            return err("%s has %d parts with %c between them", name, (int)count, mark);
        if (end != NULL)
            *end = '\0';
        if (!take_up_to(one, at, (1u << bits[i]) - 1, &part))
            return false;
        all = all << bits[i] | part;
        at = end == NULL ? at : end + 1;
    }
    *value = (uint16_t)all;
    return true;
}

static bool take_group(char *word, uint16_t *group)
{
    static const unsigned bits[] = { 5, 3, 8 };
    return take_parts("a group address", word, '/', bits, 3, group);
}

static bool take_individual(char *word, uint16_t *address)
{
    static const unsigned bits[] = { 4, 4, 8 };
    return take_parts("an individual address", word, '.', bits, 3, address);
}

static bool take_property(char *word, kelindap_pdu *pdu)
{
    static const unsigned bits[] = { 8, 8 };
    uint16_t both;
    if (!take_parts("a property", word, '/', bits, 2, &both))
        return false;
    pdu->object = (uint8_t)(both >> 8);
    pdu->id = (uint8_t)both;
    return true;
}

static bool take_address(const char *word, kelindap_pdu *pdu)
{
    uint64_t address;
    if (!take_any("an address", word, 65535, &address))
        return false;
    pdu->address = (uint16_t)address;
    return true;
}

static bool take_key(char *word, kelindap_pdu *pdu)
{
    run hex;
    if (!take_bytes("the key", word, &hex))
        return false;
    if (hex.length != 4)
        return err("a key has eight hex digits");
    pdu->key = (uint32_t)hex.bytes[0] << 24 | (uint32_t)hex.bytes[1] << 16 | (uint32_t)hex.bytes[2] << 8 | hex.bytes[3];
    return true;
}

static bool take_serial(char *word, kelindap_pdu *pdu)
{
    run hex;
    if (!take_bytes("the serial number", word, &hex))
        return false;
    if (hex.length != 6)
        return err("a serial number has twelve hex digits");
    for (size_t i = 0; i < 6; i++)
        pdu->serial = pdu->serial << 8 | hex.bytes[i];
    return true;
}

/* A number in so many bytes, the high one first. */
static bool take_wide(const char *word, size_t bytes, uint8_t *out)
{
    uint64_t number, most = bytes < 8 ? ((uint64_t)1 << 8 * bytes) - 1 : UINT64_MAX;
    if (!take_any("a value", word, most, &number))
        return false;
    for (size_t i = 0; i < bytes; i++)
        out[i] = bytes - 1 - i < 8 ? (uint8_t)(number >> 8 * (bytes - 1 - i)) : 0;
    return true;
}

/* Numbers of so many bytes each, or `hex` and the bytes themselves; at most fourteen. */
static bool take_data(char **words, size_t count, size_t size, uint8_t out[16], run *data)
{
    if (count == 2 && strcmp(words[0], "hex") == 0) {
        if (!take_bytes("hex", words[1], data))
            return false;
        return data->length <= 14 || err("no request has more than 14 bytes of data");
    }
    *data = (run){ out, 0 };
    for (size_t i = 0; i < count; i++) {
        if (data->length + size > 14)
            return err("the values have more bytes than a request has room for");
        if (!take_wide(words[i], size, out + data->length))
            return false;
        data->length += size;
    }
    return true;
}

/* ---- what is said: how a request goes ---- */

/* Takes `on C`, `alone`, `broadcast` or `to GROUP` from the end of the words. */
static bool take_route(char **words, size_t *count, route *r)
{
    uint64_t c;
    *r = (route){ 0 };
    if (*count >= 1 && strcmp(words[*count - 1], "alone") == 0) {
        *r = (route){ .mode = 2, .given = true };
        *count -= 1;
    } else if (*count >= 1 && strcmp(words[*count - 1], "broadcast") == 0) {
        *r = (route){ .mode = 1, .given = true };
        *count -= 1;
    } else if (*count >= 2 && strcmp(words[*count - 2], "on") == 0) {
        if (!take_up_to("a connection", words[*count - 1], 255, &c))
            return false;
        *r = (route){ .mode = 3, .connection = (uint8_t)c, .given = true };
        *count -= 2;
    } else if (*count >= 2 && strcmp(words[*count - 2], "to") == 0) {
        *r = (route){ .mode = 0, .given = true };
        if (!take_group(words[*count - 1], &r->group))
            return false;
        *count -= 2;
    }
    return true;
}

/* The way of a request whose words say none: on the connection named last while it is open, else without one if that may be. */
static route way_to(const talk *t, route said, enum way way)
{
    if (said.given)
        return said;
    if (way == BY_BROADCAST)
        return (route){ .mode = 1 };
    if (t->on >= 0 && t->d->link.sessions.of[t->on].open)
        return (route){ .mode = 3, .connection = (uint8_t)t->on };
    if (way == TO_DEVICE)
        return (route){ .mode = 2 };
    return (route){ .mode = 3, .connection = (uint8_t)(t->on < 0 ? 0 : t->on) };
}

/* Sends a PDU of a kind by the way that it has. */
static bool go(talk *t, route said, kelindap_pdu pdu, run data)
{
    uint8_t out[16];
    kelindap_written w = kelindap_write(pdu, data.bytes, data.length, out, sizeof out);
    enum way way = w.outcome == KELINDAP_OK ? way_of(code_of(out), false) : NO_WAY;
    return ask_pdu(t, way_to(t, said, way), pdu, data);
}

static const run no_data = { NULL, 0 };

/* Takes NAME and a number behind it, if they stand there. */
static bool take_named(char **words, size_t *at, size_t count, const char *name, uint64_t most, uint64_t *value)
{
    if (*at + 1 >= count || strcmp(words[*at], name) != 0)
        return true;
    *at += 2;
    return take_any(name, words[*at - 1], most, value);
}

/* Whether the sheet can be looked into: it breaks no rule. */
static bool readable(const talk *t)
{
    uint8_t rule = kelindap_check(t->d->sheet.bytes, t->d->sheet.length);
    return rule == KELINDAP_ACCEPTED || rule == KELINDAP_OLD;
}

#endif
