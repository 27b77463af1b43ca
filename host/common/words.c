#include "words.h"
#include "names.h"
#include "packed.h"

#include <stdarg.h>
#include <stdio.h>

void add(struct line *line, const char *format, ...)
{
    size_t room = sizeof line->text - line->length;
    va_list arguments;
    va_start(arguments, format);
    int wanted = vsnprintf(line->text + line->length, room, format, arguments);
    va_end(arguments);
    if (wanted > 0)
        line->length += (size_t)wanted < room ? (size_t)wanted : room - 1;
}

static void add_operand(struct line *line, const uint8_t *operand)
{
    uint32_t value = get16(operand + PLEX_OPERAND_VALUE);
    switch (operand[PLEX_OPERAND_KIND]) {
    case PLEX_NUMBER_OPERAND:
        add(line, "%u", value);
        break;
    case PLEX_REGISTER_OPERAND:
        add(line, "r%u", value);
        break;
    case PLEX_WORD_OPERAND:
        add(line, "w%u", value);
        break;
    default:
        add(line, "(kind %u: %u)", operand[PLEX_OPERAND_KIND], value);
    }
}

/* The data of a statement that sends or returns. */
static void add_data(struct line *line, const uint8_t *record)
{
    uint32_t count = at_most(record[PLEX_RECORD_COUNT], PLEX_REGISTERS);
    for (uint32_t i = 0; i < count; i++) {
        add(line, i == 0 ? " WITH " : ", ");
        add_operand(line, operand_at(record, i));
    }
}

/* Two operands with the operator between them. */
static void add_pair(struct line *line, const uint8_t *p, const char *operator)
{
    add_operand(line, p);
    add(line, " %s ", operator);
    add_operand(line, p + PLEX_OPERAND_SIZE);
}

static void add_assign(struct line *line, const uint8_t *record)
{
    uint32_t operator= record[PLEX_RECORD_OPERATOR];
    add(line, "ASSIGN ");
    add_operand(line, operand_at(record, 0));
    add(line, " := ");
    if (operator== PLEX_COPY)
        add_operand(line, operand_at(record, 1));
    else
        add_pair(line, operand_at(record, 1), assign_operator_name(operator));
    add(line, ", on to %u", get16(record + PLEX_RECORD_A));
}

static void add_divide(struct line *line, const uint8_t *record)
{
    add(line, "DIVIDE ");
    add_operand(line, operand_at(record, 0));
    add(line, ", ");
    add_operand(line, operand_at(record, 1));
    add(line, " := ");
    add_pair(line, operand_at(record, 2), "/");
    add(line, ", on to %u", get16(record + PLEX_RECORD_A));
}

/* A source; a number that is taken for a packed one, by its digits. */
static void add_source(struct line *line, const uint8_t *record, uint32_t index)
{
    const uint8_t *operand = operand_at(record, index);
    if (reads_packed(record) && operand[PLEX_OPERAND_KIND] == PLEX_NUMBER_OPERAND)
        add_packed(line, get16(operand + PLEX_OPERAND_VALUE));
    else
        add_operand(line, operand);
}

/* PACK, UNPACK and DECIMAL ADD. */
static void add_decimal(struct line *line, const uint8_t *record)
{
    uint32_t opcode = record[PLEX_RECORD_OPCODE];
    add(line, "%s ", opcode_name(opcode));
    add_operand(line, operand_at(record, 0));
    add(line, " := ");
    add_source(line, record, 1);
    if (opcode == PLEX_DECIMAL_ADD) {
        add(line, " + ");
        add_source(line, record, 2);
    }
    add(line, ", on to %u", get16(record + PLEX_RECORD_A));
}

static void add_if(struct line *line, const uint8_t *record)
{
    add(line, "IF ");
    add_pair(line, operand_at(record, 0), if_operator_name(record[PLEX_RECORD_OPERATOR]));
    add(line, " THEN %u ELSE %u", get16(record + PLEX_RECORD_A), get16(record + PLEX_RECORD_B));
}

static void add_signalling(struct line *line, const uint8_t *record)
{
    uint32_t opcode = record[PLEX_RECORD_OPCODE];
    add(line, "%s", opcode_name(opcode));
    if (opcode != PLEX_RETURN)
        add(line, " to %u", get16(record + PLEX_RECORD_A));
    add_data(line, record);
    if (opcode == PLEX_SEND_BUFFERED || opcode == PLEX_SEND_TREE)
        add(line, ", on to %u", get16(record + PLEX_RECORD_B));
    if (opcode == PLEX_CALL)
        add(line, ", return to %u", get16(record + PLEX_RECORD_B));
}

void add_statement(struct line *line, const uint8_t *record)
{
    uint32_t opcode = record[PLEX_RECORD_OPCODE];
    switch (opcode) {
    case PLEX_SKIP:
        add(line, "SKIP, on to %u", get16(record + PLEX_RECORD_A));
        break;
    case PLEX_GOTO:
        add(line, "GOTO %u", get16(record + PLEX_RECORD_A));
        break;
    case PLEX_ASSIGN:
        add_assign(line, record);
        break;
    case PLEX_DIVIDE:
        add_divide(line, record);
        break;
    case PLEX_PACK:
    case PLEX_UNPACK:
    case PLEX_DECIMAL_ADD:
        add_decimal(line, record);
        break;
    case PLEX_IF:
        add_if(line, record);
        break;
    case PLEX_SEND_DIRECT:
    case PLEX_SEND_BUFFERED:
    case PLEX_CALL:
    case PLEX_RETURN:
    case PLEX_TRANSFER:
    case PLEX_SEND_TREE:
        add_signalling(line, record);
        break;
    case PLEX_EXIT:
        add(line, "EXIT");
        break;
    default:
        add(line, "unknown opcode %u", opcode);
    }
}

void add_record(struct line *line, const uint8_t *image, uint32_t label)
{
    const uint8_t *record = record_at(image, label);
    uint32_t entry = record[PLEX_RECORD_ENTRY];
    add(line, "%3u  %-8s  ", label, entry == PLEX_NO_ENTRY ? "" : entry_name(entry));
    add_statement(line, record);
}

void add_row(struct line *line, const uint8_t *row)
{
    uint32_t kind = row[PLEX_ROW_KIND];
    add(line, "thread %u, ", row[PLEX_ROW_THREAD]);
    if (kind <= PLEX_CMX)
        add(line, "%s", block_kind_name(kind));
    else
        add(line, "unknown kind %u", kind);
    add(line, ", lock %u", row[PLEX_ROW_LOCK]);
}

/* The values of a signal or an arrival, which is laid out alike. */
static void add_values(struct line *line, const uint8_t *signal)
{
    uint32_t count = at_most(signal[PLEX_SIGNAL_COUNT], PLEX_REGISTERS);
    for (uint32_t i = 0; i < count; i++)
        add(line, "%s%u", i == 0 ? " WITH " : ", ", get16(signal + PLEX_SIGNAL_VALUES + 2 * i));
}

void add_event(struct line *line, const uint8_t *event)
{
    uint32_t kind = event[PLEX_EVENT_KIND];
    const uint8_t *signal = event + PLEX_EVENT_SIGNAL;
    if (kind == PLEX_ARRIVAL) {
        add(line, "arrival at %u", get16(signal + PLEX_SIGNAL_LABEL));
        add_values(line, signal);
    } else if (kind == PLEX_STEP || kind == PLEX_CUT) {
        add(line, "%s of thread %u", event_kind_name(kind), event[PLEX_EVENT_THREAD]);
    } else {
        add(line, "unknown kind %u", kind);
    }
}

/* As " 0 4", of 16 bits. */
static void add_numbers(struct line *line, uint32_t bits)
{
    for (uint32_t number = 0; bits >> number != 0; number++)
        if (bits >> number & 1)
            add(line, " %u", number);
}

void add_blocks(struct line *line, uint32_t blocks)
{
    add(line, blocks == 0 ? "no block of the image" : count_bits(blocks) == 1 ? "block" : "blocks");
    add_numbers(line, blocks);
}

void add_lock(struct line *line, uint32_t lock, const struct groups *groups)
{
    add(line, "lock %u", lock);
    if (groups == NULL || lock >= PLEX_LOCKS)
        return;
    add(line, " of ");
    add_blocks(line, groups->blocks[lock]);
}

void add_answer(struct line *line, const uint8_t *answer, const struct groups *groups)
{
    uint32_t code = answer[PLEX_ANSWER_CODE], detail = answer[PLEX_ANSWER_DETAIL];
    add(line, "%s", code_name(code));
    if (code == PLEX_WAITING) {
        add(line, " for ");
        add_lock(line, detail, groups);
    }
    if (code == PLEX_TRAPPED)
        add(line, " %u, %s", detail, trap_name(detail));
    if (code == PLEX_EXITED && detail != 0)
        add(line, ", %u held %s lost", detail, detail == 1 ? "signal" : "signals");
}

void add_place(struct line *line, const uint8_t *thread)
{
    uint32_t label = get16(thread + PLEX_THREAD_LABEL), locks = get16(thread + PLEX_THREAD_LOCKS);
    uint32_t returns = at_most(thread[PLEX_THREAD_RETURN_COUNT], PLEX_RETURNS_MAX);
    if (label == PLEX_IDLE)
        add(line, "idle");
    else
        add(line, "at label %u", label);
    add(line, ", locks%s", locks == 0 ? " none" : "");
    add_numbers(line, locks);
    add(line, ", return labels%s", returns == 0 ? " none" : "");
    for (uint32_t i = 0; i < returns; i++)
        add(line, " %u", get16(thread + PLEX_THREAD_RETURNS + 2 * i));
}

void add_thread(struct line *line, const uint8_t *thread)
{
    uint32_t held = at_most(thread[PLEX_THREAD_HELD_COUNT], PLEX_HELD_MAX);
    add_place(line, thread);
    add(line, held == 0 ? "" : ", held labels");
    for (uint32_t i = 0; i < held; i++)
        add(line, " %u", get16(held_at(thread, i) + PLEX_SIGNAL_LABEL));
}

void add_registers(struct line *line, const uint8_t *thread)
{
    uint32_t presence = get32(thread + PLEX_THREAD_PRESENCE);
    const char *gap = "";
    for (uint32_t r = 0; r < PLEX_REGISTERS; r++)
        if (presence >> r & 1) {
            add(line, "%sr%u=%u", gap, r, get16(thread + PLEX_THREAD_VALUES + 2 * r));
            gap = " ";
        }
    add(line, presence == 0 ? "none" : "");
}

void add_signal(struct line *line, const uint8_t *signal)
{
    add(line, "label %u", get16(signal + PLEX_SIGNAL_LABEL));
    add_values(line, signal);
}
