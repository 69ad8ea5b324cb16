/* The call of the plain engine's header over that of the proved module; passing.h says what a line becomes. */
#include "kelindap_plain.h"
#include "passing.h"

_Static_assert(sizeof(kelindap_session) == 2 && offsetof(kelindap_session, level) == 1 && sizeof(kelindap_sessions) == 4,
               "as the module has it");
_Static_assert(sizeof(kelindap_plain_reply) == 6 && offsetof(kelindap_plain_reply, sessions) == 2, "as the module has it");

/* the sessions by value: their four bytes as one number, the first the lowest */
#define HEADER_SESSIONS(name) kelindap_sessions name
#define MODULE_SESSIONS(name) word
#define GIVEN_SESSIONS(name) \
    (word)name.of[0].open | (word)name.of[0].level << 8 | (word)name.of[1].open << 16 | (word)name.of[1].level << 24

/* six bytes, which come back as a number of 64 bits does */
typedef uint64_t raw_kelindap_plain_reply;
static kelindap_plain_reply made_kelindap_plain_reply(uint64_t r)
{
    return (kelindap_plain_reply){ (uint8_t)r, (uint8_t)(r >> 8),
                                   { { { (uint8_t)(r >> 16), (uint8_t)(r >> 24) }, { (uint8_t)(r >> 32), (uint8_t)(r >> 40) } } } };
}

CALL(kelindap_plain_reply, plain_request, SESSIONS(sessions), WRITE(sheet), NUMBER(uint8_t, mode),
     NUMBER(uint8_t, connection), NUMBER(uint16_t, group), READ(apdu), WRITE(answer))
