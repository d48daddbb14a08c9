/* Prints the messages of pailradish_message, each behind its number: to be compared with the table of docs/REFUSALS.md. */
#include <inttypes.h>
#include <stdio.h>
#include <string.h>

#include "pailradish.h"

int main(void)
{
    for (uint32_t number = 0; number < 100; number++) {
        const char *message = pailradish_message(number);

        if (strcmp(message, "unknown number") != 0)
            printf("%" PRIu32 " %s\n", number, message);
    }
    return 0;
}
