// Pushes a number by one seat, and pops it by another.
#include "msq.h"
#include <stdio.h>

int main(void) {
    uint8_t roles[] = {MSQ_GIVER, MSQ_TAKER};
    msq_seat seats[2] = {0};
    msq_value value;
    if (msq_create(MSQ_NON_BLOCKING, 64, MSQ_MOST_COUNT, roles, 2, seats, 2) != MSQ_OK) {
        return 1;
    }
    if (msq_try_push(&seats[0], 42, 8) == MSQ_OK && msq_try_pop(&seats[1], 8, &value) == MSQ_OK) {
        printf("%llu from seat %u\n", (unsigned long long)value.body, value.from);
    }
    msq_drop(&seats[0]);
    msq_drop(&seats[1]);
    return 0;
}
