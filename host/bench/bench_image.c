/* The record at label i is in block i mod blocks, and has entry i / blocks mod 4.
 * So with 4 records a block or more, each block has a record of each entry. */
#include "bench_image.h"
#include "fields.h"

#include <string.h>

struct builder {
    uint32_t records, blocks;
    uint64_t chance;
};

/* A number below the limit, from a fixed sequence (xorshift). */
static uint32_t below(struct builder *builder, uint32_t limit)
{
    uint64_t x = builder->chance;
    x ^= x << 13;
    x ^= x >> 7;
    x ^= x << 17;
    builder->chance = x;
    return (uint32_t)(x >> 32) % limit;
}

static uint32_t label_in_block(struct builder *builder, uint32_t block)
{
    return block + builder->blocks * below(builder, builder->records / builder->blocks);
}

static uint32_t signal_in_block(struct builder *builder, uint32_t block, uint32_t entry)
{
    uint32_t fours = builder->records / builder->blocks / 4;
    return block + builder->blocks * (4 * below(builder, fours) + entry);
}

uint32_t bench_operand_limit(uint32_t kind)
{
    static const uint32_t limits[] = {[PLEX_NUMBER_OPERAND] = 65536,
                                      [PLEX_REGISTER_OPERAND] = PLEX_REGISTERS,
                                      [PLEX_WORD_OPERAND] = PLEX_BLOCK_WORDS};
    return limits[kind];
}

static void add_operand(struct builder *builder, uint8_t *record, uint32_t kind)
{
    uint32_t index = record[PLEX_RECORD_COUNT]++;
    uint8_t *operand = record + PLEX_RECORD_OPERANDS + PLEX_OPERAND_SIZE * index;
    operand[0] = (uint8_t)kind;
    put16(operand + 1, below(builder, bench_operand_limit(kind)));
}

static void add_operands(struct builder *builder, uint8_t *record, uint32_t count)
{
    for (uint32_t i = 0; i < count; i++)
        add_operand(builder, record, PLEX_NUMBER_OPERAND + below(builder, 3));
}

static void fill_assign(struct builder *builder, uint8_t *record)
{
    uint32_t operator= PLEX_COPY + below(builder, PLEX_MULTIPLY);
    record[PLEX_RECORD_OPERATOR] = (uint8_t) operator;
    add_operand(builder, record, PLEX_REGISTER_OPERAND + below(builder, 2));
    add_operands(builder, record, operator== PLEX_COPY ? 1 : 2);
    put16(record + PLEX_RECORD_A, label_in_block(builder, record[PLEX_RECORD_BLOCK]));
}

static void fill_if(struct builder *builder, uint8_t *record)
{
    record[PLEX_RECORD_OPERATOR] = (uint8_t)(PLEX_EQUAL + below(builder, PLEX_LESS));
    add_operands(builder, record, 2);
    put16(record + PLEX_RECORD_A, label_in_block(builder, record[PLEX_RECORD_BLOCK]));
    put16(record + PLEX_RECORD_B, label_in_block(builder, record[PLEX_RECORD_BLOCK]));
}

/* Opcodes 5 to 9: their data, and the labels they use. */
static void fill_signal(struct builder *builder, uint8_t *record)
{
    uint32_t opcode = record[PLEX_RECORD_OPCODE], own = record[PLEX_RECORD_BLOCK];
    uint32_t entry = opcode == PLEX_SEND_BUFFERED ? PLEX_BUFFERED : PLEX_DIRECT;
    uint32_t block = opcode == PLEX_TRANSFER ? own : below(builder, builder->blocks);
    add_operands(builder, record, below(builder, PLEX_REGISTERS + 1));
    if (opcode != PLEX_RETURN)
        put16(record + PLEX_RECORD_A, signal_in_block(builder, block, entry));
    if (opcode == PLEX_SEND_BUFFERED || opcode == PLEX_CALL)
        put16(record + PLEX_RECORD_B, label_in_block(builder, own));
}

static void fill_record(struct builder *builder, uint8_t *record, uint32_t opcode)
{
    record[PLEX_RECORD_OPCODE] = (uint8_t)opcode;
    if (opcode == PLEX_ASSIGN)
        fill_assign(builder, record);
    else if (opcode == PLEX_IF)
        fill_if(builder, record);
    else if (opcode == PLEX_SKIP || opcode == PLEX_GOTO)
        put16(record + PLEX_RECORD_A, label_in_block(builder, record[PLEX_RECORD_BLOCK]));
    else if (opcode != PLEX_EXIT)
        fill_signal(builder, record);
}

/* Any number gives a sequence of its own, and any sequence is the same in every run. */
static void fill_image(uint8_t *image, size_t records, uint32_t blocks, uint32_t number)
{
    struct builder builder = {.records = (uint32_t)records,
                              .blocks = blocks,
                              .chance = 88172645463325252u + number * UINT64_C(0x9E3779B97F4A7C15)};
    memset(image, 0, PLEX_RECORD_SIZE * records);
    for (uint32_t label = 0; label < records; label++) {
        uint8_t *record = image + PLEX_RECORD_SIZE * label;
        record[PLEX_RECORD_BLOCK] = (uint8_t)(label % builder.blocks);
        record[PLEX_RECORD_ENTRY] = (uint8_t)(label / builder.blocks % 4);
        /* The first ten records have each opcode up to EXIT once, ASSIGN first. */
        uint32_t opcode = label < PLEX_EXIT ? (label + 1) % PLEX_EXIT + 1 : 1 + below(&builder, PLEX_EXIT);
        fill_record(&builder, record, opcode);
    }
}

void bench_mixed_image(uint8_t *image, size_t records)
{
    bench_numbered_image(image, records, 0);
}

void bench_numbered_image(uint8_t *image, size_t records, uint32_t number)
{
    fill_image(image, records, records < 16 ? 1 : records < 64 ? 4 : PLEX_BLOCKS, number);
}

void bench_guest_image(uint8_t *image, size_t records, uint32_t first_block)
{
    fill_image(image, records, GUEST_BLOCKS, 0);
    for (size_t label = 0; label < records; label++)
        image[PLEX_RECORD_SIZE * label + PLEX_RECORD_BLOCK] += (uint8_t)first_block;
}

void bench_exit_image(uint8_t *image, size_t records)
{
    memset(image, 0, PLEX_RECORD_SIZE * records);
    for (size_t label = 0; label < records; label++)
        image[PLEX_RECORD_SIZE * label + PLEX_RECORD_OPCODE] = PLEX_EXIT;
}
