/* Whether an archive says of itself what it is: is_proved WANTED, of which the archive's answer has to be the number. */
#include "huqmeris.h"
#include <stdio.h>
#include <stdlib.h>

int main(int count, char **words)
{
    if (count != 2 || (strcmp(words[1], "0") && strcmp(words[1], "1"))) {
        fprintf(stderr, "usage: is_proved 0, or 1\n");
        return 2;
    }
    uint32_t wanted = (uint32_t)atoi(words[1]), answered = hq_is_proved();
    if (answered != wanted) {
        printf("hq_is_proved answers %u, and not %u\n", (unsigned)answered, (unsigned)wanted);
        return 1;
    }
    printf("hq_is_proved through C: %u, as wanted\n", (unsigned)answered);
    return 0;
}
