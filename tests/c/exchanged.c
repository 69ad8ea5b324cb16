/*
 * The calls of kelindap_unit.h, and what must not compile: each case has two arguments exchanged, or one of another kind; the
 * last ones are calls of the other headers in the order of an older release. exchanged.sh compiles it with WRONG undefined, and
 * then once for each case.
 */
#include "kelindap_plain.h"
#include "kelindap_unit.h"

void played(uint8_t *sheet, size_t length, kelindap_bytes apdu, kelindap_bytes frame, const uint8_t *trace, size_t count);
void played(uint8_t *sheet, size_t length, kelindap_bytes apdu, kelindap_bytes frame, const uint8_t *trace, size_t count)
{
    static uint8_t kept[64], lines[KELINDAP_LOG_LINE], copy[64], out[KELINDAP_LINK_ROOM];
    static uint32_t numbers[66];
    kelindap_unit unit = kelindap_unit_start(sheet, length);
    enum kelindap_mode mode = KELINDAP_CONNECTED;
    uint16_t group = 0x0801;
    kelindap_store store = { kept, sizeof kept };
    kelindap_room log = { lines, sizeof lines };
    kelindap_marks marks = { numbers, 66, copy, sizeof copy, 0 };
    kelindap_piece piece = kelindap_whole_trace(trace, count);
    kelindap_arrival arrival = kelindap_unit_heard(&unit, frame);
    kelindap_version_number version = kelindap_version_of(3);
    kelindap_sessions sessions = kelindap_fresh();
    kelindap_link link = unit.link;
    (void)mode, (void)group, (void)apdu, (void)store, (void)log, (void)marks, (void)piece, (void)arrival, (void)version;
    (void)out, (void)sessions, (void)link;
#if !defined WRONG
    kelindap_unit_convert(&unit);
    kelindap_unit_connect(&unit, KELINDAP_SECOND);
    kelindap_unit_disconnect(&unit, KELINDAP_FIRST);
    kelindap_unit_button(&unit, true);
    kelindap_unit_request(&unit, kelindap_connected(KELINDAP_FIRST), apdu);
    kelindap_unit_request(&unit, kelindap_multicast(group), apdu);
    kelindap_unit_saving(&unit, kelindap_unit_serve(&unit, arrival, frame, 3).changed);
    kelindap_unit_store_check(&store);
    kelindap_unit_save(&unit, &store);
    kelindap_unit_restore(&unit, KELINDAP_FIRST, &store, version);
    kelindap_unit_remove(&store, version);
    kelindap_unit_kept(&store, 0);
    kelindap_unit_trace_check(piece);
    kelindap_unit_play(&unit, piece, log);
    kelindap_unit_play_marked(&unit, piece, log, &marks);
    kelindap_request(&sessions, sheet, length, KELINDAP_MULTICAST, 0, group, apdu.bytes, apdu.length, out, sizeof out);
    kelindap_plain_request(sessions, sheet, length, KELINDAP_MULTICAST, 0, group, apdu.bytes, apdu.length, out, sizeof out);
    kelindap_serve(&link, sheet, length, frame.bytes, frame.length, out, sizeof out, 3);
#elif WRONG == 1 /* the length before the sheet */
    unit = kelindap_unit_start(length, sheet);
#elif WRONG == 2 /* the connection before the unit */
    kelindap_unit_connect(KELINDAP_SECOND, &unit);
#elif WRONG == 3 /* a mode as a connection */
    kelindap_unit_connect(&unit, KELINDAP_CONNECTED);
#elif WRONG == 4 /* the same, by a variable */
    kelindap_unit_disconnect(&unit, mode);
#elif WRONG == 5 /* the APDU before the way */
    kelindap_unit_request(&unit, apdu, kelindap_broadcast());
#elif WRONG == 6 /* a pointer alone for the APDU */
    kelindap_unit_request(&unit, kelindap_connectionless(), apdu.bytes);
#elif WRONG == 7 /* a mode for the way */
    kelindap_unit_request(&unit, mode, apdu);
#elif WRONG == 8 /* a mode for the connection of a request */
    kelindap_unit_request(&unit, kelindap_connected(KELINDAP_CONNECTED), apdu);
#elif WRONG == 9 /* the way before the unit */
    kelindap_unit_request(kelindap_multicast(group), &unit, apdu);
#elif WRONG == 10 /* a group for a request that has none */
    kelindap_unit_request(&unit, kelindap_broadcast(group), apdu);
#elif WRONG == 11 /* an outcome as a connection */
    kelindap_unit_connect(&unit, kelindap_unit_connect(&unit, KELINDAP_FIRST));
#elif WRONG == 12 /* a rule as an outcome */
    enum kelindap_outcome outcome = kelindap_unit_check(&unit);
    (void)outcome;
#elif WRONG == 13 /* an outcome as a rule */
    enum kelindap_rule rule = kelindap_unit_convert(&unit);
    (void)rule;
#elif WRONG == 14 /* the frame before the arrival */
    kelindap_unit_serve(&unit, frame, arrival, 3);
#elif WRONG == 15 /* the sequence number before the frame */
    kelindap_unit_serve(&unit, arrival, 3, frame);
#elif WRONG == 16 /* the frame before the unit */
    kelindap_unit_heard(frame, &unit);
#elif WRONG == 17 /* a store for the unit */
    kelindap_unit_save(&store, &unit);
#elif WRONG == 18 /* the version before the connection */
    kelindap_unit_restore(&unit, version, &store, KELINDAP_FIRST);
#elif WRONG == 19 /* a number for the version */
    kelindap_unit_restore(&unit, KELINDAP_FIRST, &store, 3);
#elif WRONG == 20 /* the store last */
    kelindap_unit_restore(&unit, KELINDAP_FIRST, version, &store);
#elif WRONG == 21 /* a version of the unit removed */
    kelindap_unit_remove(&unit, version);
#elif WRONG == 22 /* the log before the trace */
    kelindap_unit_play(&unit, log, piece);
#elif WRONG == 23 /* the marks before the log */
    kelindap_unit_play_marked(&unit, piece, &marks, log);
#elif WRONG == 24 /* what came as room to be filled */
    kelindap_unit_play(&unit, piece, frame);
#elif WRONG == 25 /* a store as room to be filled */
    kelindap_unit_play(&unit, piece, store);
#elif WRONG == 26 /* what was stored before the unit */
    kelindap_unit_saving(kelindap_unit_serve(&unit, arrival, frame, 3).changed, &unit);
#elif WRONG == 27 /* 0.3.0: the sheet of a request behind its APDU */
    kelindap_request(&sessions, 0, 0, group, apdu.bytes, apdu.length, sheet, length, out, sizeof out);
#elif WRONG == 28 /* 0.3.0: the same of the plain engine */
    kelindap_plain_request(sessions, 0, 0, group, apdu.bytes, apdu.length, sheet, length, out, sizeof out);
#elif WRONG == 29 /* 0.3.0: the sequence number first */
    kelindap_serve(&link, 0, frame.bytes, frame.length, sheet, length, out, sizeof out);
#elif WRONG == 30 /* the frame, which is not to be written, for the sheet */
    kelindap_serve(&link, frame.bytes, frame.length, sheet, length, out, sizeof out, 3);
#else
#error "no case of this number"
#endif
}
