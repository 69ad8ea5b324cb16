/* Where each field of the headers' structures stands, by name, so that the page's script has no numbers of its own for it. */
#include "kelindap_frame.h"
#include "kelindap_link.h"
#include "kelindap_pdu.h"
#include "kelindap_store.h"
#include "kelindap_trace.h"

typedef struct page_field {
    const char *name;
    size_t at;
    size_t size;
} page_field;

#define WHOLE(type) { #type, 0, sizeof(kelindap_##type) }
#define FIELD(type, name) { #type "." #name, offsetof(kelindap_##type, name), sizeof(((kelindap_##type *)0)->name) }

const page_field *page_fields(void);

/* up to the one without a name */
const page_field *page_fields(void)
{
    static const page_field fields[] = {
        WHOLE(sessions),
        WHOLE(reply), FIELD(reply, outcome), FIELD(reply, count),
        WHOLE(part), FIELD(part, offset), FIELD(part, length),
        WHOLE(saved), FIELD(saved, outcome), FIELD(saved, number),
        WHOLE(listed), FIELD(listed, number), FIELD(listed, length),
        WHOLE(played), FIELD(played, refusal), FIELD(played, handled),
        WHOLE(pdu), FIELD(pdu, serial), FIELD(pdu, key), FIELD(pdu, address), FIELD(pdu, domain), FIELD(pdu, s),
        FIELD(pdu, maximum), FIELD(pdu, outcome), FIELD(pdu, kind), FIELD(pdu, v), FIELD(pdu, t), FIELD(pdu, object),
        FIELD(pdu, id), FIELD(pdu, n), FIELD(pdu, index), FIELD(pdu, type), FIELD(pdu, access), FIELD(pdu, level),
        FIELD(pdu, data_offset), FIELD(pdu, data_length),
        WHOLE(written), FIELD(written, outcome), FIELD(written, count),
        WHOLE(point), FIELD(point, hundredths), FIELD(point, bits), FIELD(point, type), FIELD(point, value),
        FIELD(point, outcome),
        WHOLE(frame), FIELD(frame, source), FIELD(frame, destination), FIELD(frame, outcome), FIELD(frame, event),
        FIELD(frame, code), FIELD(frame, control1), FIELD(frame, control2), FIELD(frame, transport),
        FIELD(frame, info_offset), FIELD(frame, info_length), FIELD(frame, tpdu_offset), FIELD(frame, tpdu_length),
        WHOLE(framed), FIELD(framed, count), FIELD(framed, outcome),
        WHOLE(link), FIELD(link, address),
        WHOLE(arrival), FIELD(arrival, event), FIELD(arrival, connection), FIELD(arrival, group), FIELD(arrival, source),
        FIELD(arrival, sequence), FIELD(arrival, negative),
        WHOLE(served), FIELD(served, number), FIELD(served, outcome), FIELD(served, connection), FIELD(served, count),
        { NULL, 0, 0 },
    };
    return fields;
}
