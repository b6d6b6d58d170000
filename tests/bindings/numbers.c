/* Compares the names of bindings/c/names.c with those of the proved calls, for each number of a byte, and prints each name
   with its help. It is linked to a library that shows the proved calls. */
#include "support.h"
#include "../../bindings/c/handles.h"

typedef bcp47_outcome writer(uint8_t, uint8_t *, size_t);
typedef const char *namer(int);

static void compare(writer *proved, namer *name, int first, int last) {
    for (int number = 0; number < 256; number++) {
        uint8_t buffer[BCP47_LINE];
        bcp47_outcome outcome = proved((uint8_t)number, buffer, sizeof buffer);
        /* Names of statuses above 12 are of C alone. */
        if (first <= number && number <= last) continue;
        CHECK(outcome.length == strlen(name(number)) && !memcmp(buffer, name(number), outcome.length));
    }
}

int main(void) {
    compare(bcp47_write_status_name, bcp47_status_name, BCP47_NOT_OPEN, BCP47_BAD_HEADER);
    compare(bcp47_write_fault_name, bcp47_fault_name, 1, 0);
    compare(bcp47_write_kind_name, bcp47_kind_name, 1, 0);
    compare(bcp47_write_part_kind_name, bcp47_part_kind_name, 1, 0);
    for (int fault = 0; *bcp47_fault_name(fault); fault++) printf("%s: %s\n", bcp47_fault_name(fault), bcp47_fault_help(fault));
    for (int status = 0; *bcp47_status_name(status); status++) printf("%s: %s\n", bcp47_status_name(status), bcp47_status_help(status));
    return failures != 0;
}
