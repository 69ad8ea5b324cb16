/*
 * What bytes of a sheet and requests mean, in words: for the log, in those of "sheet diff" (which has an arrow where "->" stands
 * here). Of a key they tell only that it changed.
 */
#ifndef MEANING_H
#define MEANING_H

#include <stddef.h>
#include <stdint.h>

enum { MEANING_LINE = 160, MEANING_ADDRESS = 12 };

/* Takes a line. */
typedef void meaning_take(void *to, const char *line);

/* What tells two accepted sheets of one length and layout apart, a line for each value; gives the number of lines. */
size_t meaning_changes(const uint8_t *before, const uint8_t *after, size_t length, meaning_take *take, void *to);

/* What a request asks for, from octet 6 on: "property_write of 1/51 from element 1". No value and no key is in it. */
void meaning_request(char out[MEANING_LINE], const uint8_t *apdu, size_t length, uint16_t group);

/* An individual address: 1.1.5; and a group address: 1/0/1. */
const char *meaning_address(char out[MEANING_ADDRESS], uint16_t address);
const char *meaning_group(char out[MEANING_ADDRESS], uint16_t address);

#endif
