#include "names.h"

/* The name at a number of a list, or "unknown" past its end and where it has none. */
#define NAME(names, number) name_in(names, sizeof(names) / sizeof(names)[0], number)

static const char *name_in(const char *const *names, size_t count, uint32_t number)
{
    return number < count && names[number] != NULL ? names[number] : "unknown";
}

static const char *const opcodes[] = {
    [PLEX_SKIP] = "SKIP", [PLEX_ASSIGN] = "ASSIGN",           [PLEX_GOTO] = "GOTO",
    [PLEX_IF] = "IF",     [PLEX_SEND_DIRECT] = "SEND direct", [PLEX_SEND_BUFFERED] = "SEND buffered",
    [PLEX_CALL] = "CALL", [PLEX_RETURN] = "RETURN",           [PLEX_TRANSFER] = "TRANSFER",
    [PLEX_EXIT] = "EXIT", [PLEX_SEND_TREE] = "SEND JOBTREE",  [PLEX_DIVIDE] = "DIVIDE",
    [PLEX_PACK] = "PACK", [PLEX_UNPACK] = "UNPACK",           [PLEX_DECIMAL_ADD] = "DECIMAL ADD"};

static const char *const assign_operators[] = {
    [PLEX_COPY] = "copy", [PLEX_ADD] = "+", [PLEX_SUBTRACT] = "-", [PLEX_MULTIPLY] = "*"};

static const char *const if_operators[] = {[PLEX_EQUAL] = "=", [PLEX_LESS] = "<"};

static const char *const entries[] = {
    [PLEX_NO_ENTRY] = "none", [PLEX_DIRECT] = "direct", [PLEX_BUFFERED] = "buffered", [PLEX_EXTERNAL] = "external"};

static const char *const block_kinds[] = {[PLEX_FD] = "FD", [PLEX_CMX] = "CMX"};

static const char *const event_kinds[] = {[PLEX_ARRIVAL] = "arrival", [PLEX_STEP] = "step", [PLEX_CUT] = "cut"};

static const char *const codes[] = {[PLEX_ARRIVED] = "arrived", [PLEX_LIST_FULL] = "turned away, the list is full",
                                    [PLEX_NO_WORK] = "no work", [PLEX_WAITING] = "waiting",
                                    [PLEX_STARTED] = "started", [PLEX_MOVED_ON] = "moved on",
                                    [PLEX_EXITED] = "EXIT",     [PLEX_TRAPPED] = "trap",
                                    [PLEX_WAS_CUT] = "cut",     [PLEX_NOTHING_TO_CUT] = "nothing to cut"};

static const char *const traps[] = {[PLEX_ABSENT_REGISTER] = "an absent register is read",
                                    [PLEX_BELOW_ZERO] = "subtraction below zero",
                                    [PLEX_ZERO_DIVISOR] = "division by zero",
                                    [PLEX_NOT_DECIMAL] = "a number above 9,999 packed, or a digit above 9",
                                    [PLEX_NO_RETURN_LABEL] = "RETURN with no return label",
                                    [PLEX_RETURNS_FULL] = "CALL with 8 return labels",
                                    [PLEX_PENDING_FULL] = "buffered SEND with 8 signals pending in the job's own tree",
                                    [PLEX_HELD_FULL] = "SEND JOBTREE with 4 signals held",
                                    [PLEX_FOREIGN_FD_BLOCK] = "direct SEND or CALL to an FD block of another thread"};

static const char *const refusals[] = {[PLEX_BAD_IMAGE_LENGTH] = "the image's length is not 84 x n, n 1 to 512",
                                       [PLEX_BAD_TABLE_LENGTH] = "the table is not 48 bytes",
                                       [PLEX_BAD_TABLE_FIELD] = "a field of the table is out of range",
                                       [PLEX_BAD_RECORD] = "a record breaks a rule",
                                       [PLEX_BAD_STATE_LENGTH] = "the state is not 9,633 bytes",
                                       [PLEX_BAD_STATE] = "the state is not well formed",
                                       [PLEX_BAD_EVENTS_LENGTH] = "the events are not 55 x m bytes, m 0 to 1,024",
                                       [PLEX_BAD_EVENT] = "an event breaks a rule",
                                       [PLEX_BAD_ANSWERS_LENGTH] = "the answers are not 2 bytes an event",
                                       [PLEX_BAD_WORDS_LENGTH] = "the initial words are not 512 bytes",
                                       [PLEX_BAD_WALK_THREAD] = "the walk's thread is above 7",
                                       [PLEX_BAD_MET_LENGTH] = "the walk's buffer is not 8 bytes",
                                       [PLEX_SHARED_BLOCK] = "both images name the same block",
                                       [PLEX_TOO_MANY_RECORDS] = "the images have more than 512 records together",
                                       [PLEX_BAD_OUTPUT_LENGTH] = "the output is not as long as both images together"};

const char *opcode_name(uint32_t opcode)
{
    return NAME(opcodes, opcode);
}
const char *assign_operator_name(uint32_t operator)
{
    return NAME(assign_operators, operator);
}
const char *if_operator_name(uint32_t operator)
{
    return NAME(if_operators, operator);
}
const char *entry_name(uint32_t entry)
{
    return NAME(entries, entry);
}
const char *block_kind_name(uint32_t kind)
{
    return NAME(block_kinds, kind);
}
const char *event_kind_name(uint32_t kind)
{
    return NAME(event_kinds, kind);
}
const char *code_name(uint32_t code)
{
    return NAME(codes, code);
}
const char *trap_name(uint32_t reason)
{
    return NAME(traps, reason);
}
const char *refusal_name(uint32_t number)
{
    return NAME(refusals, number);
}
