#include "amounts.h"

#include <inttypes.h>
#include <stdio.h>

struct amount amount_of(uint64_t number)
{
    struct amount amount;
    char digits[sizeof amount.text];
    int count = snprintf(digits, sizeof digits, "%" PRIu64, number), length = 0;
    for (int i = 0; i < count; i++) {
        if (i > 0 && (count - i) % 3 == 0)
            amount.text[length++] = ',';
        amount.text[length++] = digits[i];
    }
    amount.text[length] = '\0';
    return amount;
}
