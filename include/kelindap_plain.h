/*
 * The plain engine: a second engine for requests, written to be read. It takes the sheet apart into records, applies the rules
 * to them by straight search, and writes the sheet again. Outcome, count and what it leaves are those of kelindap_request,
 * for every sheet, sessions and request: that is proved. It does not tell which parts of the sheet were stored. Where it was
 * measured it takes ten to forty times as long, and a quarter of a megabyte of stack, of which the tests let it have half a
 * megabyte (docs/SPEED.md): it is for a desk, not for a controller.
 *
 * Link with libkelindap_plain.a, by pkg-config the package kelindap-plain; the other calls of kelindap.h, and the host's duties,
 * are those of kelindap.h.
 */
#ifndef KELINDAP_PLAIN_H
#define KELINDAP_PLAIN_H

#include "kelindap.h"

#ifdef __cplusplus
extern "C" {
#endif

/* What a request gave: its outcome, how many bytes of the answer buffer were filled, and the sessions afterwards. */
typedef struct kelindap_plain_reply {
    uint8_t outcome;
    uint8_t count;
    kelindap_sessions sessions;
} kelindap_plain_reply;

/*
 * A request, as kelindap_request has it, but for the sessions: they are given by value, and the host keeps those that come back,
 * whatever the outcome. A host that goes on with those that it gave has not taken over a level, or a Restart.
 */
kelindap_plain_reply kelindap_plain_request(kelindap_sessions sessions, uint8_t *sheet, size_t sheet_length,
                                            uint8_t mode, uint8_t connection, uint16_t group,
                                            const uint8_t *apdu, size_t apdu_length,
                                            uint8_t *answer, size_t answer_length);

#ifdef __cplusplus
}
#endif
#endif
