/* The rules of table rows, records and events in words. */
#include "explain.h"
#include "names.h"

#include <string.h>

/* What an opcode does with a label: nothing, go on inside the block, or send to a signal. */
enum label_use { UNUSED, INSIDE, SIGNAL };

static const struct opcode_rule {
    enum label_use a, b;
    uint8_t entry_at_a; /* the entry of the signal, or none asked for */
    uint8_t operators;  /* 1 to this many; 0 if the opcode has none */
    uint8_t fewest, most;
    uint8_t destinations; /* of the operands, the first so many are stored to */
} rules[] = {
    [PLEX_SKIP] = {.a = INSIDE},
    [PLEX_ASSIGN] = {.a = INSIDE, .operators = PLEX_MULTIPLY, .fewest = 2, .most = 3, .destinations = 1},
    [PLEX_GOTO] = {.a = INSIDE},
    [PLEX_IF] = {.a = INSIDE, .b = INSIDE, .operators = PLEX_LESS, .fewest = 2, .most = 2},
    [PLEX_SEND_DIRECT] = {.a = SIGNAL, .entry_at_a = PLEX_DIRECT, .most = PLEX_REGISTERS},
    [PLEX_SEND_BUFFERED] = {.a = SIGNAL, .b = INSIDE, .entry_at_a = PLEX_BUFFERED, .most = PLEX_REGISTERS},
    [PLEX_CALL] = {.a = SIGNAL, .b = INSIDE, .entry_at_a = PLEX_DIRECT, .most = PLEX_REGISTERS},
    [PLEX_RETURN] = {.most = PLEX_REGISTERS},
    [PLEX_TRANSFER] = {.a = INSIDE, .entry_at_a = PLEX_DIRECT, .most = PLEX_REGISTERS},
    [PLEX_EXIT] = {.a = UNUSED},
    [PLEX_SEND_TREE] = {.a = SIGNAL, .b = INSIDE, .entry_at_a = PLEX_BUFFERED, .most = PLEX_REGISTERS},
    [PLEX_DIVIDE] = {.a = INSIDE, .fewest = 4, .most = 4, .destinations = 2},
    [PLEX_PACK] = {.a = INSIDE, .fewest = 2, .most = 2, .destinations = 1},
    [PLEX_UNPACK] = {.a = INSIDE, .fewest = 2, .most = 2, .destinations = 1},
    [PLEX_DECIMAL_ADD] = {.a = INSIDE, .fewest = 3, .most = 3, .destinations = 1},
};
enum { LAST_OPCODE = sizeof rules / sizeof rules[0] - 1 };

bool is_zero(const uint8_t *part, size_t size)
{
    size_t at = 0;
    while (at < size && part[at] == 0)
        at++;
    return at == size;
}

void explain_row(struct line *why, const uint8_t *table, uint32_t block)
{
    const uint8_t *row = row_at(table, block);
    if (row[PLEX_ROW_THREAD] >= PLEX_THREADS)
        add(why, "its thread is %u, and threads are 0 to %d", row[PLEX_ROW_THREAD], PLEX_THREADS - 1);
    else if (row[PLEX_ROW_KIND] > PLEX_CMX)
        add(why, "its kind is %u, and kinds are 0 (FD) and 1 (CMX)", row[PLEX_ROW_KIND]);
    else if (row[PLEX_ROW_LOCK] >= PLEX_LOCKS)
        add(why, "its lock is %u, and locks are 0 to %d", row[PLEX_ROW_LOCK], PLEX_LOCKS - 1);
}

static void explain_head(struct line *why, const uint8_t *record)
{
    uint32_t opcode = record[PLEX_RECORD_OPCODE];
    if (opcode < PLEX_SKIP || opcode > LAST_OPCODE)
        add(why, "opcode %u is none of %d to %d", opcode, PLEX_SKIP, LAST_OPCODE);
    else if (record[PLEX_RECORD_BLOCK] >= PLEX_BLOCKS)
        add(why, "its block is %u, and blocks are 0 to %d", record[PLEX_RECORD_BLOCK], PLEX_BLOCKS - 1);
    else if (record[PLEX_RECORD_ENTRY] > PLEX_EXTERNAL)
        add(why, "its entry is %u, and entries are 0 to %d", record[PLEX_RECORD_ENTRY], PLEX_EXTERNAL);
}

static void explain_operator(struct line *why, const uint8_t *record)
{
    const struct opcode_rule *rule = &rules[record[PLEX_RECORD_OPCODE]];
    const char *name = opcode_name(record[PLEX_RECORD_OPCODE]);
    uint32_t operator= record[PLEX_RECORD_OPERATOR];
    if (rule->operators == 0 && operator!= 0)
        add(why, "%s has no operator, so byte %d is 0 and not %u", name, PLEX_RECORD_OPERATOR, operator);
    else if (rule->operators != 0 && (operator== 0 || operator> rule->operators))
        add(why, "operator %u of %s is none of 1 to %u", operator, name, rule->operators);
}

static void explain_count(struct line *why, const uint8_t *record)
{
    uint32_t opcode = record[PLEX_RECORD_OPCODE], count = record[PLEX_RECORD_COUNT];
    uint32_t fewest = rules[opcode].fewest, most = rules[opcode].most;
    if (opcode == PLEX_ASSIGN)
        fewest = most = record[PLEX_RECORD_OPERATOR] == PLEX_COPY ? 2 : 3;
    if (count >= fewest && count <= most)
        return;
    add(why, "its operand count is %u, and %s", count, opcode_name(opcode));
    if (opcode == PLEX_ASSIGN)
        add(why, " %s", assign_operator_name(record[PLEX_RECORD_OPERATOR]));
    if (fewest == most)
        add(why, " has %u", most);
    else
        add(why, " has %u to %u", fewest, most);
}

/* The label A or B, used as the opcode uses it. */
static void explain_label(struct line *why, const uint8_t *image, uint32_t records, const uint8_t *record, bool is_a)
{
    const struct opcode_rule *rule = &rules[record[PLEX_RECORD_OPCODE]];
    const char *name = opcode_name(record[PLEX_RECORD_OPCODE]);
    char letter = is_a ? 'A' : 'B';
    enum label_use use = is_a ? rule->a : rule->b;
    uint32_t label = get16(record + (is_a ? PLEX_RECORD_A : PLEX_RECORD_B));
    if (use == UNUSED) {
        if (label != 0)
            add(why, "%s uses no label %c, so it is 0 and not %u", name, letter, label);
        return;
    }
    if (label >= records) {
        add(why, "label %c is %u, and the image's labels are below %u", letter, label, records);
        return;
    }
    const uint8_t *target = record_at(image, label);
    uint32_t own = record[PLEX_RECORD_BLOCK], wanted = is_a ? rule->entry_at_a : PLEX_NO_ENTRY;
    if (wanted != PLEX_NO_ENTRY && target[PLEX_RECORD_ENTRY] != wanted)
        add(why, "label %c is %u, whose entry is %s, and the signal of %s has entry %s", letter, label,
            entry_name(target[PLEX_RECORD_ENTRY]), name, entry_name(wanted));
    else if (use == INSIDE && target[PLEX_RECORD_BLOCK] != own)
        add(why, "label %c is %u, in block %u, and here it is in the record's block %u", letter, label,
            target[PLEX_RECORD_BLOCK], own);
}

static const char *destination_name(uint32_t destinations, uint32_t index)
{
    return destinations == 1 ? "the destination"
           : index == 0      ? "the quotient's destination"
                             : "the remainder's destination";
}

static void explain_operand(struct line *why, const uint8_t *record, uint32_t index)
{
    const uint8_t *operand = operand_at(record, index);
    uint32_t kind = operand[PLEX_OPERAND_KIND], value = get16(operand + PLEX_OPERAND_VALUE);
    uint32_t destinations = rules[record[PLEX_RECORD_OPCODE]].destinations;
    if (kind < PLEX_NUMBER_OPERAND || kind > PLEX_WORD_OPERAND)
        add(why, "operand %u has kind %u, and kinds are 1 to 3", index, kind);
    else if (kind == PLEX_REGISTER_OPERAND && value >= PLEX_REGISTERS)
        add(why, "operand %u is register %u, and registers are 0 to %d", index, value, PLEX_REGISTERS - 1);
    else if (kind == PLEX_WORD_OPERAND && value >= PLEX_BLOCK_WORDS)
        add(why, "operand %u is shared word %u, and a block's words are 0 to %d", index, value, PLEX_BLOCK_WORDS - 1);
    else if (kind == PLEX_NUMBER_OPERAND && index < destinations)
        add(why, "%s is a number, and it is a register or a shared word", destination_name(destinations, index));
}

/* Given operands that each keep the rules by themselves. */
static void explain_destinations(struct line *why, const uint8_t *record)
{
    const uint8_t *first = operand_at(record, 0), *second = operand_at(record, 1);
    uint32_t opcode = record[PLEX_RECORD_OPCODE];
    if (rules[opcode].destinations == 2 && memcmp(first, second, PLEX_OPERAND_SIZE) == 0)
        add(why, "both destinations are %s %u, and %s has two different ones",
            first[PLEX_OPERAND_KIND] == PLEX_REGISTER_OPERAND ? "register" : "shared word",
            get16(first + PLEX_OPERAND_VALUE), opcode_name(opcode));
}

/* Given a count of at most 25: the operands, and the bytes after the last. */
static void explain_operands(struct line *why, const uint8_t *record)
{
    uint32_t count = record[PLEX_RECORD_COUNT];
    for (uint32_t i = 0; i < count && why->length == 0; i++)
        explain_operand(why, record, i);
    if (why->length == 0)
        explain_destinations(why, record);
    size_t after = PLEX_RECORD_OPERANDS + PLEX_OPERAND_SIZE * count;
    if (why->length == 0 && !is_zero(record + after, PLEX_RECORD_SIZE - after))
        add(why, "a byte after its last operand is not 0");
}

void explain_record(struct line *why, const uint8_t *image, uint32_t records, uint32_t label)
{
    const uint8_t *record = record_at(image, label);
    explain_head(why, record);
    if (why->length == 0)
        explain_operator(why, record);
    if (why->length == 0)
        explain_count(why, record);
    if (why->length == 0)
        explain_label(why, image, records, record, true);
    if (why->length == 0)
        explain_label(why, image, records, record, false);
    if (why->length == 0)
        explain_operands(why, record);
}

void explain_values(struct line *why, const uint8_t *signal)
{
    uint32_t count = signal[PLEX_SIGNAL_COUNT];
    if (count > PLEX_REGISTERS)
        add(why, "its value count is %u, and a signal has 0 to %d values", count, PLEX_REGISTERS);
    else if (!is_zero(signal + PLEX_SIGNAL_VALUES + 2 * count, 2 * (PLEX_REGISTERS - count)))
        add(why, "a byte after its last value is not 0");
}

static void explain_arrival(struct line *why, const uint8_t *image, uint32_t records, const uint8_t *event)
{
    const uint8_t *signal = event + PLEX_EVENT_SIGNAL;
    uint32_t label = get16(signal + PLEX_SIGNAL_LABEL);
    if (event[PLEX_EVENT_THREAD] != 0)
        add(why, "an arrival has thread 0 and not %u", event[PLEX_EVENT_THREAD]);
    else if (label >= records)
        add(why, "its label is %u, and the image's labels are below %u", label, records);
    else if (record_at(image, label)[PLEX_RECORD_ENTRY] != PLEX_EXTERNAL)
        add(why, "its label is %u, whose entry is %s, and arrivals go to entry external", label,
            entry_name(record_at(image, label)[PLEX_RECORD_ENTRY]));
    else
        explain_values(why, signal);
}

void explain_event(struct line *why, const uint8_t *image, uint32_t records, const uint8_t *event)
{
    uint32_t kind = event[PLEX_EVENT_KIND];
    if (kind == PLEX_ARRIVAL)
        explain_arrival(why, image, records, event);
    else if (kind != PLEX_STEP && kind != PLEX_CUT)
        add(why, "kind %u is none of 1 to 3", kind);
    else if (event[PLEX_EVENT_THREAD] >= PLEX_THREADS)
        add(why, "its thread is %u, and threads are 0 to %d", event[PLEX_EVENT_THREAD], PLEX_THREADS - 1);
    else if (!is_zero(event + PLEX_EVENT_SIGNAL, PLEX_SIGNAL_SIZE))
        add(why, "a %s has zero bytes after its thread", event_kind_name(kind));
}
