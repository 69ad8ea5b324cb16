/* A host that finds the headers and libraries where they were installed; with PLAIN, by the plain engine. */
#include <kelindap.h>
#include <kelindap_names.h>
#include <kelindap_pdu.h>
#include <kelindap_unit.h>
#include <stdio.h>
#ifdef PLAIN
#include <kelindap_plain.h>
#endif

int main(void)
{
    uint8_t out[16] = { 0 };
    kelindap_pdu junk = kelindap_read(out, 0);
    kelindap_unit unit = kelindap_unit_start(out, 0);
    printf("%s %d %d %s, %s\n", KELINDAP_VERSION_TEXT, kelindap_version() == KELINDAP_VERSION,
           kelindap_pdu_version() == KELINDAP_VERSION,
           kelindap_outcome_name(kelindap_write(junk, NULL, 0, out, sizeof out).outcome),
           kelindap_rule_name((uint8_t)kelindap_unit_check(&unit)));
#ifdef PLAIN
    kelindap_plain_reply reply = kelindap_plain_request(unit.link.sessions, NULL, 0, KELINDAP_BROADCAST, 0, 0, NULL, 0, out, 16);
    puts(kelindap_outcome_name(reply.outcome));
#endif
    return 0;
}
