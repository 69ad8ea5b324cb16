/* In words: the requests, by their services. A part of unit_words.h. */
#ifndef UNIT_WORDS_REQUESTS_H
#define UNIT_WORDS_REQUESTS_H

/* ---- properties ---- */

static bool read_property(talk *t, char **words, size_t count, route said)
{
    uint64_t s = 1, n = 1;
    size_t at = 1;
    kelindap_pdu pdu = { .kind = KELINDAP_PROPERTY_READ };
    if (!take_property(words[0], &pdu) || !take_named(words, &at, count, "from", 4095, &s) ||
        !take_named(words, &at, count, "count", 15, &n))
        return false;
    if (at != count)
        return err("the form is: read property OBJECT/ID [from S] [count N]");
    pdu.s = (uint16_t)s;
    pdu.n = (uint8_t)n;
    return go(t, said, pdu, no_data);
}

static bool write_property(talk *t, char **words, size_t count, route said)
{
    uint8_t out[16];
    uint64_t s = 1;
    size_t at = 1;
    run data;
    kelindap_pdu pdu = { .kind = KELINDAP_PROPERTY_WRITE };
    if (!take_property(words[0], &pdu) || !take_named(words, &at, count, "from", 4095, &s))
        return false;
    const uint8_t *entry = readable(t) ? property_at(t->d->sheet.bytes, pdu.object, pdu.id) : NULL;
    size_t size = entry == NULL || s == 0 ? 2 : entry[3]; /* of one that is not there nobody knows */
    if (at == count)
        return err("the form is: write property OBJECT/ID [from S] VALUE .., or .. hex BYTES");
    if (!take_data(words + at, count - at, size, out, &data))
        return false;
    pdu.s = (uint16_t)s;
    pdu.n = (uint8_t)((data.length + size - 1) / size);
    return go(t, said, pdu, data);
}

static bool describe_property(talk *t, char **words, size_t count, route said)
{
    kelindap_pdu pdu = { .kind = KELINDAP_DESCRIPTION_READ };
    (void)count;
    return take_property(words[0], &pdu) && go(t, said, pdu, no_data);
}

static bool describe_index(talk *t, char **words, size_t count, route said)
{
    uint64_t object, index;
    (void)count;
    if (!take_any("OBJECT", words[0], 255, &object) || !take_any("INDEX", words[1], 255, &index))
        return false;
    return go(t, said, (kelindap_pdu){ .kind = KELINDAP_DESCRIPTION_READ, .object = (uint8_t)object, .index = (uint8_t)index }, no_data);
}

/* ---- memory ---- */

static bool read_bytes(talk *t, uint8_t kind, uint64_t most, char **words, size_t count, route said)
{
    uint64_t n = 1;
    kelindap_pdu pdu = { .kind = kind };
    if (!take_address(words[0], &pdu) || (count > 1 && !take_any("N", words[1], most, &n)))
        return false;
    pdu.n = (uint8_t)n;
    return go(t, said, pdu, no_data);
}

static bool read_memory(talk *t, char **words, size_t count, route said)
{
    return read_bytes(t, KELINDAP_MEMORY_READ, 15, words, count, said);
}

static bool read_user(talk *t, char **words, size_t count, route said)
{
    return read_bytes(t, KELINDAP_USER_MEMORY_READ, 255, words, count, said);
}

static bool write_bytes(talk *t, uint8_t kind, char **words, route said)
{
    run data;
    kelindap_pdu pdu = { .kind = kind };
    if (!take_address(words[0], &pdu) || !take_bytes("BYTES", words[1], &data))
        return false;
    if (data.length > 12)
        return err("no request writes more than 12 bytes of memory");
    pdu.n = (uint8_t)data.length;
    return go(t, said, pdu, data);
}

static bool write_memory(talk *t, char **words, size_t count, route said)
{
    (void)count;
    return write_bytes(t, KELINDAP_MEMORY_WRITE, words, said);
}

static bool write_user(talk *t, char **words, size_t count, route said)
{
    (void)count;
    return write_bytes(t, KELINDAP_USER_MEMORY_WRITE, words, said);
}

static bool write_bits(talk *t, char **words, size_t count, route said)
{
    uint8_t both[10];
    run and, xor;
    kelindap_pdu pdu = { .kind = KELINDAP_MEMORY_BIT_WRITE };
    (void)count;
    if (!take_address(words[0], &pdu) || !take_bytes("AND", words[1], &and) || !take_bytes("XOR", words[2], &xor))
        return false;
    if (and.length != xor.length || and.length > 5)
        return err("AND and XOR have as many bytes, at most 5");
    memcpy(both, and.bytes, and.length);
    memcpy(both + and.length, xor.bytes, xor.length);
    pdu.n = (uint8_t)and.length;
    return go(t, said, pdu, (run){ both, 2 * and.length });
}

/* ---- group values ---- */

static bool read_group(talk *t, char **words, size_t count, route said)
{
    route r = { .mode = 0 };
    (void)count, (void)said;
    return take_group(words[0], &r.group) && ask_pdu(t, r, (kelindap_pdu){ .kind = KELINDAP_GROUP_READ }, no_data);
}

static bool give_group(talk *t, uint8_t kind, char **words, size_t count)
{
    uint8_t out[16];
    uint64_t bits;
    run data = no_data;
    route r = { .mode = 0 };
    kelindap_pdu pdu = { .kind = kind };
    if (!take_group(words[0], &r.group))
        return false;
    const uint8_t *entry = readable(t) ? group_at(t->d->sheet.bytes, r.group) : NULL;
    size_t size = entry == NULL ? 1 : entry[2];
    if (count == 2 && size == 0) {
        if (!take_any("a value of six bits", words[1], 63, &bits))
            return false;
        pdu.v = (uint8_t)bits;
    } else if (!take_data(words + 1, count - 1, size, out, &data)) {
        return false;
    }
    return ask_pdu(t, r, pdu, data);
}

static bool write_group(talk *t, char **words, size_t count, route said)
{
    (void)said;
    return give_group(t, KELINDAP_GROUP_WRITE, words, count);
}

static bool respond_group(talk *t, char **words, size_t count, route said)
{
    (void)said;
    return give_group(t, KELINDAP_GROUP_RESPONSE, words, count);
}

/* ---- addresses, the descriptor, keys ---- */

static bool read_address(talk *t, char **words, size_t count, route said)
{
    (void)words, (void)count;
    return go(t, said, (kelindap_pdu){ .kind = KELINDAP_ADDRESS_READ }, no_data);
}

static bool write_address(talk *t, char **words, size_t count, route said)
{
    kelindap_pdu pdu = { .kind = KELINDAP_ADDRESS_WRITE };
    (void)count;
    return take_individual(words[0], &pdu.address) && go(t, said, pdu, no_data);
}

static bool read_serial(talk *t, char **words, size_t count, route said)
{
    kelindap_pdu pdu = { .kind = KELINDAP_SERIAL_READ };
    (void)count;
    return take_serial(words[0], &pdu) && go(t, said, pdu, no_data);
}

static bool write_serial(talk *t, char **words, size_t count, route said)
{
    kelindap_pdu pdu = { .kind = KELINDAP_SERIAL_WRITE };
    (void)count;
    return take_serial(words[0], &pdu) && take_individual(words[1], &pdu.address) && go(t, said, pdu, no_data);
}

static bool read_descriptor(talk *t, char **words, size_t count, route said)
{
    uint64_t type = 0;
    if (count > 0 && !take_any("TYPE", words[0], 63, &type))
        return false;
    return go(t, said, (kelindap_pdu){ .kind = KELINDAP_DESCRIPTOR_READ, .t = (uint8_t)type }, no_data);
}

static bool authorize(talk *t, char **words, size_t count, route said)
{
    kelindap_pdu pdu = { .kind = KELINDAP_AUTHORIZE_REQUEST };
    (void)count;
    return take_key(words[0], &pdu) && go(t, said, pdu, no_data);
}

static bool write_key(talk *t, char **words, size_t count, route said)
{
    uint64_t level;
    kelindap_pdu pdu = { .kind = KELINDAP_KEY_WRITE };
    (void)count;
    if (!take_any("LEVEL", words[0], 255, &level) || !take_key(words[1], &pdu))
        return false;
    pdu.level = (uint8_t)level;
    return go(t, said, pdu, no_data);
}

static bool restart(talk *t, char **words, size_t count, route said)
{
    (void)words, (void)count;
    return go(t, said, (kelindap_pdu){ .kind = KELINDAP_RESTART }, no_data);
}

/* ---- any request ---- */

static bool send_fields(talk *t, char **words, size_t count, route said)
{
    draft w = { .kind = kind_of(words[0]), .fits = true };
    uint8_t both[2 * MOST_BITS];
    if (w.kind == KELINDAP_NO_KIND)
        return err("no kind of PDU has this name: \"%s\"", shown(words[0]));
    if (!take_fields(&w, words + 1, count - 1))
        return false;
    run data = data_of(&w, both);
    w.pdu.kind = w.fits ? w.kind : KELINDAP_NO_KIND;
    return go(t, said, w.pdu, data);
}

static bool send_raw(talk *t, char **words, size_t count, route said)
{
    run apdu;
    (void)count;
    if (!take_bytes("the APDU", words[0], &apdu))
        return false;
    enum way way = apdu.length < 2 ? TO_DEVICE : way_of(code_of(apdu.bytes), false);
    if (way == BY_GROUP && !said.given)
        return err("which group: raw %s to 1/0/1", "APDU");
    return ask(t, way_to(t, said, way), apdu);
}

/* As the line language has it. */
static bool send_request(talk *t, char **words, size_t count, route said)
{
    uint64_t mode, group;
    uint8_t c;
    run apdu, answer;
    (void)count, (void)said;
    if (!take_up_to("MODE", words[0], 255, &mode) || !take_up_to("GROUP", words[1], 65535, &group) ||
        !take_bytes("APDUHEX", words[2], &apdu) || !take_bytes("BUFHEX", words[3], &answer) || !take_connection(words[4], &c))
        return false;
    return ask_in(t, (route){ .mode = (uint8_t)mode, .connection = c, .group = (uint16_t)group }, apdu, answer);
}

#endif
