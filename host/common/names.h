/* The numbers of the formats in words. A number without a meaning is "unknown". */
#ifndef NAMES_H
#define NAMES_H

#include "plex.h"

const char *opcode_name(uint32_t opcode);
const char *assign_operator_name(uint32_t operator);
const char *if_operator_name(uint32_t operator);
const char *entry_name(uint32_t entry);
const char *block_kind_name(uint32_t kind);
const char *event_kind_name(uint32_t kind);
const char *code_name(uint32_t code);
const char *trap_name(uint32_t reason);
const char *refusal_name(uint32_t number);

#endif
