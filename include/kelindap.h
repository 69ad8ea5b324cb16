/*
 * The device side of the KNX application layer, for one device.
 *
 *  1. Load the sheet that was saved last, and kelindap_check it: 0 is accepted, 14 is old and converted once (kelindap_convert).
 *  2. Begin with the sessions from kelindap_fresh.
 *  3. Hand over what comes from the bus: a request to kelindap_request, or a whole frame to kelindap_serve (kelindap_link.h).
 *  4. Save the sheet if a part of it was stored: the reply names the parts (`changed`).
 *  5. Then acknowledge, and send the answer if there is one (`count` bytes).
 *
 * kelindap_unit.h has the same calls with sheet and sessions in one record, and arguments that can't be exchanged; the order of
 * arguments here, and how to ask whether a call succeeded, kelindap_common.h tells once for all headers.
 *
 * LINKING. With libkelindap_device.a, by pkg-config the package kelindap. On x86-64 it needs memcpy and memset from outside
 * today, and nothing else. A freestanding host should provide memcpy, memset, memmove and memcmp: compiled code may call any.
 * For which processors there are archives docs/PROCESSORS.md says; nothing here depends on one. README.md, the folders docs and examples,
 * two sample sheets and a page that shows the device in a browser are installed beside the headers, in share/doc/kelindap.
 *
 * AN APDU is the part of a frame from octet 6 on: 2 to 16 bytes, of which the first, b0, is octet 6. The service code is the two
 * low bits of b0 and the eight of the next byte. The six high bits of b0 are transport's: in a request they are ignored, in an
 * answer they are 0, and the host's transport sets them when it sends.
 *
 * THE HOST'S DUTIES, which no proof covers
 *
 * At the start
 *  - it begins with the sessions from kelindap_fresh and a sheet that kelindap_check accepts. No request on another sheet does
 *    anything, so a host that skips the check has a device that is silent;
 *  - a sheet of edition 1 that breaks no rule is old: outcome 14 where a bad one gets 4. The host, or whoever keeps the sheet,
 *    converts it once with kelindap_convert and saves it before the first request; no event and no tool on the bus does.
 *    Versions and traces that were made with the old sheet stay good for the converted one;
 *  - programming mode is a bit of the sheet, and so survives in a saved one: a host that does not want to start in it calls
 *    kelindap_button with false first, and the button's lamp follows bit 0 of byte 14.
 *
 * Buffers and calls
 *  - the buffers of one call do not overlap, and stay lent until the call returns;
 *  - nothing else writes the sheet between calls: the promises about a history hold only then;
 *  - a bool is 0 or 1, and a pointer has as many readable (for answer and sheet, writable) bytes as its length says;
 *  - a length of 0 is allowed everywhere, and its pointer is then never followed: NULL with 0 is an empty run;
 *  - calls on one sheet come one after the other, never from two threads at once.
 *
 * Connections
 *  - a sheet has one kelindap_sessions, which the host keeps and these calls alone change. Two partners may be connected at
 *    once. The host gives each the number of a connection, 0 or 1, whose session is closed, and turns a third away; from the
 *    connect to the disconnect it names that number in every call for this partner, and in none for another. The rights of a
 *    request in mode 3 are those of the number that comes with it: a host that takes one partner for the other gives it the
 *    other's level;
 *  - a partner that is connected and connects again keeps its number: the host calls kelindap_connect with it once more, and
 *    the session is open at level 3, so that its key has to be offered anew. It gets no second number: one partner would then
 *    hold both connections;
 *  - the mode says how the frame came. The library sees no address of the frame but the group address: in modes 2 and 3 the
 *    host hands over only what is sent to this device, in mode 3 only what comes from the partner that has the number. In the
 *    other modes the number is not read. A host that has the frames themselves leaves numbers, addresses and modes to the calls
 *    of kelindap_link.h, which keep these duties by the addresses in the frames, proved;
 *  - when a connection opens or ends, transport's time limits included, the host calls connect or disconnect with its number.
 *
 * Restart
 *  - it closes both sessions, on whichever connection it came. The host sees it by the sessions: one that was open before a call
 *    of kelindap_request and is closed after it was closed by a Restart, and by nothing else. Each connection that this is true
 *    of is then dropped, the other partner's too; that needs no disconnect, its session is closed at level 3 already. In mode 2
 *    a Restart is taken only if the sheet names rules 1, and then from anybody who reaches this device: such a sheet lets every
 *    sender end both connections. There it shows as outcome 1, which no other request gets in mode 2, also if no session was
 *    open. After that the host restarts what it wants.
 *
 * Saving
 *  - the sheet is all that has to survive a power cut; the sessions begin fresh. A request, and a frame that is served
 *    (kelindap_link.h), tells which parts of the sheet it stored; a button that is carried out stored byte 14, a restore counts and
 *    bodies of properties (kelindap_store.h), and no other call changes the sheet but kelindap_convert and playing
 *    (kelindap_trace.h). After such a call the host saves, and then acknowledges or answers: what a tool takes for done is kept;
 *  - a save leaves the old sheet or the new one, whole, whenever the power goes; and a start is from what was saved, never from
 *    memory that lay open to a call. kelindap_slots.h does it in flash, EEPROM, FRAM or battery-backed memory, by two slots: a host
 *    that keeps the duties of that header, and these, on a medium of which its one assumption is true, keeps all that is promised
 *    of a history through any number of power cuts, proved. With files, a new one is renamed over the old one (examples/host.c):
 *    the file system's word is then taken for it, and no proof speaks of it. kelindap_check judges the form of a sheet and is no
 *    check sum; a slot has one.
 *
 * Wear
 *  - what is named as stored may be what stood there, and group values and programming mode ask for no level: any sender on the
 *    bus can have them stored as often as it likes. A host that saves each time lets it wear out the flash. So these may be
 *    saved late, at times of the host's own: kelindap_may_wait tells a part that is nothing else from all others, and
 *    kelindap_saving what is due of a reply (kelindap_wear.h). What a power cut then takes is such a value, until it is sent
 *    again. Address, keys, memory, counts and bodies of properties may not wait. Memory and properties whose write level is 3
 *    are open to every sender too: a sheet that is kept in flash should have none of these.
 *
 * Secrets
 *  - the keys stand in the sheet in clear: whoever reads the saved copy, a dump or a backup has them;
 *  - no key is special. A tool that "deletes" a key by writing FFFFFFFFh does not close that level but opens it: whoever then
 *    sends FFFFFFFFh by Authorize gets it. With key 0 that is level 0, which may write all that can be written.
 *
 * Byte 30 of the sheet names the rules. They differ in two services, Restart and the read of a device descriptor, and no call
 * changes the byte; docs/RULES.md tells of both.
 */
#ifndef KELINDAP_H
#define KELINDAP_H

#include "kelindap_common.h"

#ifdef __cplusplus
extern "C" {
#endif

/*
 * Outcome 2 has these causes, and nothing is answered or changed:
 *  - a group value: the sheet has no entry for the address, or the entry's flag for this service is off;
 *  - an individual address is read or written, and the device is not in programming mode;
 *  - the same by serial number, and the number is not this device's;
 *  - a device descriptor of a type other than 0 is read, and the sheet names rules 0. Under rules 1 this is denied: outcome 11
 *    and the answer 037Fh, whatever the type.
 */

/* The modes of a request. */
enum kelindap_mode {
    KELINDAP_MULTICAST = 0,
    KELINDAP_BROADCAST = 1,
    KELINDAP_CONNECTIONLESS = 2,
    KELINDAP_CONNECTED = 3
};

/* The session of a connection: open or closed, and its level, 0 with most rights; a level above 3 is read as 3. */
typedef struct kelindap_session {
    bool open;
    uint8_t level;
} kelindap_session;

/* The sessions of connections 0 and 1. There is no other connection: any other number is refused by 7. */
enum { KELINDAP_CONNECTIONS = 2 };
typedef struct kelindap_sessions {
    kelindap_session of[KELINDAP_CONNECTIONS];
} kelindap_sessions;

/* A part of a sheet; 0 and 0 if the sheet is not accepted, an old one included, or has no such entry, or if nothing was stored. */
typedef struct kelindap_part {
    size_t offset;
    size_t length;
} kelindap_part;

/*
 * What a request gave: its outcome, how many bytes of the answer buffer were filled, and the parts of the sheet that were
 * stored, at most two. Every byte outside both is as found, and both lie in the sheet; if the outcome is 2 or more, both are 0
 * and 0. What was stored may be what stood there. A host saves if one of them has a length, or saves these bytes alone.
 */
enum { KELINDAP_CHANGED = 2 };
typedef struct kelindap_reply {
    uint8_t outcome;
    uint8_t count;
    kelindap_part changed[KELINDAP_CHANGED];
} kelindap_reply;

/* The version of the library, in the form of KELINDAP_VERSION. */
uint32_t kelindap_version(void);

/* Both closed at level 3. */
kelindap_sessions kelindap_fresh(void);

/*
 * The session of this connection: open at level 3, also if already open; closed at level 3. Both give 1, or 7 if there is no
 * such connection, and then change nothing. The other session is never touched.
 */
uint8_t kelindap_connect(kelindap_sessions *sessions, uint8_t connection);
uint8_t kelindap_disconnect(kelindap_sessions *sessions, uint8_t connection);

/* The programming button: 4 if the sheet breaks a rule, 14 if it is old, and then nothing has changed; else 1, and no byte but
   byte 14 is another. */
uint8_t kelindap_button(uint8_t *sheet, size_t sheet_length, bool on);

/*
 * A request. The connection counts in mode 3 only, the group address in mode 0 only. The first `count` bytes of the answer
 * buffer are filled, the rest stays. The sheet is checked on every request.
 */
kelindap_reply kelindap_request(kelindap_sessions *sessions, uint8_t *sheet, size_t sheet_length,
                                uint8_t mode, uint8_t connection, uint16_t group,
                                const uint8_t *apdu, size_t apdu_length,
                                uint8_t *answer, size_t answer_length);

/*
 * 0 if the sheet is accepted; else the number of the first rule it breaks, S1 to S9, or, if it breaks none but is of edition 1,
 * 14 (KELINDAP_OLD). docs/SHEET.md has the layout of a sheet and the rules in full; in short, a sheet breaks
 *  1  if its length is not 32 to 16,384 bytes;
 *  2  if its edition is not 1 or 2;
 *  3  if it has more than 16 regions, 64 properties, 64 group objects or, in edition 2, 16 user regions;
 *  4  if it states another length than it has, or has no room for its entries;
 *  5  if a bit of the head that must be 0 is not, or byte 30 names rules that the edition has not: edition 2 has 0 and 1,
 *     edition 1 has 0;
 *  6  by a region or user region: no bytes, past the last address, not above the one before of the same memory, a level
 *     above 3, zero byte;
 *  7  by a property: id 0, not above the one before, bit 6 of the type, size, maximum, count, a level above 3, zero byte;
 *  8  by a group object: address 0, not above the one before, length code, flags, zero bytes;
 *  9  by the bodies: a gap or an overlap between contents, bodies and the end of the sheet, a six-bit value above 63.
 */
uint8_t kelindap_check(const uint8_t *sheet, size_t sheet_length);

/*
 * Converts an old sheet, one that gets 14 from the check: 1, and it is of edition 2, accepted, of the same length, with no user
 * region and rules 0; byte 0 alone has changed. Any other sheet, an accepted one too, gets 4 and stays as found.
 */
uint8_t kelindap_convert(uint8_t *sheet, size_t sheet_length);

/* Where a body stands in the sheet: that of a property, of region k (the first is 0), of a group object, of user region k. */
kelindap_part kelindap_property(const uint8_t *sheet, size_t sheet_length, uint8_t object, uint8_t id);
kelindap_part kelindap_region(const uint8_t *sheet, size_t sheet_length, size_t k);
kelindap_part kelindap_group(const uint8_t *sheet, size_t sheet_length, uint16_t address);
kelindap_part kelindap_user_region(const uint8_t *sheet, size_t sheet_length, size_t k);

#ifdef __cplusplus
}
#endif
#endif
