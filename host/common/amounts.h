/* Numbers of bytes, events or records as the papers write them: 1,024. */
#ifndef AMOUNTS_H
#define AMOUNTS_H

#include <stdint.h>

struct amount {
    char text[sizeof "18,446,744,073,709,551,615"];
};

struct amount amount_of(uint64_t number);

#endif
