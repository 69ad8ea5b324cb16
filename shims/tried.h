/*
 * How a module that rt try compiled, and nothing proved, passes values (mk/bin/look, which puts the headers of device.c and
 * pdu.c above this and their lines below, and has every structure passed by its address): a run by its address and its length;
 * a result that is a structure is filled at an address that comes first. For processors of 64 bits, where the headers' structures
 * are the module's.
 */
_Static_assert(sizeof(size_t) == 8, "a processor of 64 bits");

#define MODULE_NONE void
#define GIVEN_NONE
#define MODULE_AT(type, name) type *
#define GIVEN_AT(type, name) name
#define MODULE_NUMBER(type, name) type
#define GIVEN_NUMBER(type, name) name
#define MODULE_SIZE(name) size_t
#define GIVEN_SIZE(name) name
#define MODULE_READ(name) const uint8_t *, size_t
#define GIVEN_READ(name) name, name##_length
#define MODULE_WRITE(name) uint8_t *, size_t
#define GIVEN_WRITE(name) name, name##_length
#define MODULE_NUMBERS(name) uint32_t *, size_t
#define GIVEN_NUMBERS(name) name, name##_length
#define MODULE_LONG(type, name) const type *
#define GIVEN_LONG(type, name) &name
#define MODULE_SESSIONS(name) const kelindap_sessions *
#define GIVEN_SESSIONS(name) &name
#define MODULE_LINK(name) const kelindap_link *
#define GIVEN_LINK(name) &name
#define MODULE_POINT(name) const kelindap_point *
#define GIVEN_POINT(name) &name

typedef uint8_t byte;
typedef uint32_t number;

/* by what comes back: a number, the sessions, for which nothing is given, or any other structure */
#define CALL(result, ...) SELECT(FORM_##result ~, CALL_LONG, ~)(result, __VA_ARGS__)
#define FORM_byte ~, CALL_SHORT,
#define FORM_number ~, CALL_SHORT,
#define FORM_kelindap_sessions ~, CALL_ALONE,
#define SELECT(...) SECOND(__VA_ARGS__)
#define SECOND(a, b, ...) b

#define CALL_SHORT(type, name, ...) \
    type kelindap_module_##name(EACH(MODULE, __VA_ARGS__)); \
    type kelindap_##name(EACH(HEADER, __VA_ARGS__)) \
    { \
        return kelindap_module_##name(EACH(GIVEN, __VA_ARGS__)); \
    }
#define CALL_LONG(type, name, ...) \
    void kelindap_module_##name(type *, EACH(MODULE, __VA_ARGS__)); \
    type kelindap_##name(EACH(HEADER, __VA_ARGS__)) \
    { \
        type result; \
        kelindap_module_##name(&result, EACH(GIVEN, __VA_ARGS__)); \
        return result; \
    }
#define CALL_ALONE(type, name, none) \
    void kelindap_module_##name(type *); \
    type kelindap_##name(void) \
    { \
        type result; \
        kelindap_module_##name(&result); \
        return result; \
    }
