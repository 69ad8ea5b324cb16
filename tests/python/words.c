/* What the headers say, for the Python package: a line for the version, and one for each number from 0 to 255 of each list. */
#include <stdio.h>

#include "kelindap_names.h"

int main(void)
{
    printf("version\ttext\t%s\n", KELINDAP_VERSION_TEXT);
    for (int i = 0; i < 256; i++) {
        printf("outcome\t%d\t%s\n", i, kelindap_outcome_name((uint8_t)i));
        printf("rule\t%d\t%s\n", i, kelindap_rule_name((uint8_t)i));
        printf("kind\t%d\t%s\n", i, kelindap_kind_name((uint8_t)i));
    }
    return 0;
}
