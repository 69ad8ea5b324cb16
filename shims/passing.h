/*
 * How the proved module passes values where it is not compiled for x86-64, once for all calls. A call is one line of device.c
 * or pdu.c, from which three things are made: the module's function, whose name begins with kelindap_module_, declared; the
 * header's function, which the compiler holds to its header; and the one thing that it does, calling the other. What differs is
 * how values are passed, and nothing is decided here:
 *  - a number is widened to a register on the way in; a length has 64 bits in the module on every processor;
 *  - a number, or a structure of up to four bytes, comes back in a register whose other bits say nothing, and is cut out of it;
 *    one of eight bytes comes back as a number of 64 bits does;
 *  - a structure of up to 16 bytes comes back in registers, where C does it otherwise by the type that says so;
 *  - a longer one is filled at an address, which comes first, or read at one.
 * Arguments can't be exchanged in a line: it says each once, for the header's function and for the module's.
 */
#ifndef KELINDAP_PASSING_H
#define KELINDAP_PASSING_H

#include "kelindap_common.h"

/* a register */
typedef size_t word;
_Static_assert(sizeof(word) == sizeof(void *), "an address fills a register");

/* ---- parameters: as the header has them, as the module has them, and as they are given ---- */

#define HEADER_NONE void
#define MODULE_NONE void
#define GIVEN_NONE

/* a structure of bytes, the same in both */
#define HEADER_AT(type, name) type *name
#define MODULE_AT(type, name) type *
#define GIVEN_AT(type, name) name

#define HEADER_NUMBER(type, name) type name
#define MODULE_NUMBER(type, name) word
#define GIVEN_NUMBER(type, name) name

#define HEADER_SIZE(name) size_t name
#define MODULE_SIZE(name) uint64_t
#define GIVEN_SIZE(name) name

/* a run of bytes lent to be read, or to be written: its address and its length */
#define HEADER_READ(name) const uint8_t *name, size_t name##_length
#define MODULE_READ(name) const uint8_t *, uint64_t
#define GIVEN_READ(name) name, name##_length

#define HEADER_WRITE(name) uint8_t *name, size_t name##_length
#define MODULE_WRITE(name) uint8_t *, uint64_t
#define GIVEN_WRITE(name) name, name##_length

/* and a run of numbers of 32 bits, its length being how many they are */
#define HEADER_NUMBERS(name) uint32_t *name, size_t name##_length
#define MODULE_NUMBERS(name) uint32_t *, uint64_t
#define GIVEN_NUMBERS(name) name, name##_length

/* ---- long structures, flat: as the header has them, but each length of 64 bits, as the module has it ---- */

#define DECLARED(type, name) type name;
#define COPIED(type, name) .name = from.name,
#define FLAT_TYPE(FIELDS, type, size) \
    typedef struct flat_##type { \
        FIELDS(DECLARED) \
    } flat_##type; \
    _Static_assert(sizeof(flat_##type) == (size) && (sizeof(word) == 4 || sizeof(type) == (size)), "as the module has it");
#define FLAT_RESULT(FIELDS, type, size) \
    FLAT_TYPE(FIELDS, type, size) \
    static inline type of_flat_##type(flat_##type from) { return (type){ FIELDS(COPIED) }; }
/* one that is an argument too */
#define FLAT(FIELDS, type, size) \
    FLAT_TYPE(FIELDS, type, size) \
    static inline flat_##type flat_of_##type(type from) { return (flat_##type){ FIELDS(COPIED) }; } \
    static inline type of_flat_##type(flat_##type from) { return (type){ FIELDS(COPIED) }; }

/* which is read at an address */
#define HEADER_LONG(type, name) type name
#define MODULE_LONG(type, name) const flat_##type *
#define GIVEN_LONG(type, name) (flat_##type[]){ flat_of_##type(name) }

/* ---- results: what comes back, and what is made of it ---- */

#if defined(__arm__)
/* up to four registers, for which C's only type is a vector; by the base convention, also where C would take a register of the
   floating-point unit for one */
typedef uint32_t quad __attribute__((vector_size(16)));
#define BASE __attribute__((pcs("aapcs")))
#define QUAD(q, i) ((q)[i])
#elif defined(__aarch64__) || defined(__riscv) || defined(__wasm__)
/* as C has it: in two registers of 64 bits, or through memory */
typedef struct quad {
    uint64_t first, second;
} quad;
#define BASE
#define QUAD(q, i) ((uint32_t)(((i) < 2 ? (q).first : (q).second) >> 32 * ((i) % 2)))
#else
#error "how does this processor return 16 bytes?"
#endif

static inline uint8_t low(word r) { return (uint8_t)r; }
static inline uint8_t high(word r) { return (uint8_t)(r >> 8); }

typedef word raw_byte, raw_number;
typedef uint8_t byte;
typedef uint32_t number;
static inline byte made_byte(word r) { return low(r); }
static inline number made_number(word r) { return (uint32_t)r; }

/* ---- a call: RESULT(name, parameters), for a RESULT of which there is a raw_ type and a made_ function ---- */

#define EACH(as, ...) PICK(__VA_ARGS__, 9, 8, 7, 6, 5, 4, 3, 2, 1, )(as, __VA_ARGS__)
#define PICK(a, b, c, d, e, f, g, h, i, count, ...) EACH_##count
#define EACH_1(as, a) as##_##a
#define EACH_2(as, a, ...) as##_##a, EACH_1(as, __VA_ARGS__)
#define EACH_3(as, a, ...) as##_##a, EACH_2(as, __VA_ARGS__)
#define EACH_4(as, a, ...) as##_##a, EACH_3(as, __VA_ARGS__)
#define EACH_5(as, a, ...) as##_##a, EACH_4(as, __VA_ARGS__)
#define EACH_6(as, a, ...) as##_##a, EACH_5(as, __VA_ARGS__)
#define EACH_7(as, a, ...) as##_##a, EACH_6(as, __VA_ARGS__)
#define EACH_8(as, a, ...) as##_##a, EACH_7(as, __VA_ARGS__)
#define EACH_9(as, a, ...) as##_##a, EACH_8(as, __VA_ARGS__)

#define CALL(result, name, ...) \
    BASE raw_##result kelindap_module_##name(EACH(MODULE, __VA_ARGS__)); \
    result kelindap_##name(EACH(HEADER, __VA_ARGS__)) \
    { \
        return made_##result(kelindap_module_##name(EACH(GIVEN, __VA_ARGS__))); \
    }

/* of a long structure, for which there is a flat_ type, as the module has it, and an of_flat_ function */
#define CALL_LONG(type, name, ...) \
    void *kelindap_module_##name(flat_##type *, EACH(MODULE, __VA_ARGS__)); \
    type kelindap_##name(EACH(HEADER, __VA_ARGS__)) \
    { \
        flat_##type flat; \
        kelindap_module_##name(&flat, EACH(GIVEN, __VA_ARGS__)); \
        return of_flat_##type(flat); \
    }

#endif
