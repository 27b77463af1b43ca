/* The Core PLEX plug-in machine: five calls on lent bytes, and one that tells the library's version.
 *
 * MACHINE.md is the reference of the formats and rules, HOSTS.md the guide for hosts; both are in the
 * package's documentation.
 *
 * Every buffer is a pointer and its length in bytes. A call reads and alters nothing but the
 * buffers that it is lent, keeps no pointer and keeps nothing between calls: the machine is the
 * bytes of its state. What is promised below holds if the host keeps these rules:
 *
 * - From a call's begin to its end nobody else alters a lent byte: no other thread, no signal
 *   handler, no device, no other process through shared memory or a mapped file. A call tests
 *   the bytes once and then relies on them. If a byte changes after its test, the call may write
 *   outside the buffers. So copy an image out of memory that a guest or a file can still change,
 *   and hand the copy over.
 * - One call at a time on one state. Calls on different states may go on side by side, also with
 *   the same image and table, which are only read.
 * - The buffers of one call do not overlap: no byte lies in two of them. If a buffer that the
 *   call alters has a byte in common with another one, that is an alteration during the call, as
 *   above. Buffers that meet end to end do not overlap.
 *
 * The host need not see to these:
 *
 * - Alignment is free: any address will do for any buffer.
 * - A pointer of length 0 is not used. It may be NULL.
 * - A call needs at most PLEX_STACK_MAX bytes of stack, 64 KiB. Measured: 1,464 bytes.
 * - No heap, no locks, no globals, no system calls; of the C library memcpy, memmove and memset
 *   alone. The calls are safe in any thread and in a signal handler, also while another call is
 *   interrupted, on another state.
 *
 * Each call but plex_version returns 65,536 x number + place if it refuses, and then it has altered
 * no lent byte. PLEX_NUMBER and PLEX_PLACE take a return value apart; PLEX_NUMBER is 0 exactly if the
 * call was accepted. A call refuses by the lowest of its numbers whose cause applies, and only then.
 *
 * Fields of 2 and 4 bytes are little-endian. Numbers count from 0. Unused bytes are zero.
 */
#ifndef PLEX_H
#define PLEX_H

#include <stddef.h>
#include <stdint.h>

#ifdef __cplusplus
extern "C" {
#endif

/* ---- Versions: of the library and its papers, as text and as a number, for #if, made as that of
 * plex_version; and of the formats. The latter is raised by each change of a format; no buffer holds
 * it, so a host notes it beside the bytes that it keeps. */
#define PLEX_VERSION "0.9.0"
#define PLEX_VERSION_NUMBER (0 * 65536 + 9 * 256 + 0)
#define PLEX_FORMAT_VERSION 3

/* ---- Limits. */
#define PLEX_THREADS 8       /* threads of a machine */
#define PLEX_BLOCKS 16       /* blocks of a machine */
#define PLEX_LOCKS 16        /* locks of a machine; a lock guards every block whose record has it */
#define PLEX_BLOCK_WORDS 16  /* shared words of a block */
#define PLEX_REGISTERS 25    /* registers of a thread; also data of a signal */
#define PLEX_RETURNS_MAX 8   /* return labels of a thread */
#define PLEX_TREES_MAX 16    /* job trees of a machine */
#define PLEX_PENDING_MAX 8   /* pending signals of a tree */
#define PLEX_HELD_MAX 4      /* held signals of a thread */
#define PLEX_RECORDS_MAX 512 /* records of an image; at least 1 */
#define PLEX_EVENTS_MAX 1024 /* events of one Run; at least 0 */
#define PLEX_STACK_MAX 65536 /* bytes of stack that a call needs at most */

/* ---- Sizes in bytes. */
#define PLEX_RECORD_SIZE 84 /* a record of the image; its index is its label */
#define PLEX_OPERAND_SIZE 3
#define PLEX_ROW_SIZE 3      /* a record of the block table; its index is its block */
#define PLEX_TABLE_SIZE 48   /* the block table: one record for each block */
#define PLEX_WORDS_SIZE 512  /* the shared words: word w of block b is number 16 x b + w */
#define PLEX_STATE_SIZE 9633 /* the state: words, threads, tree count, trees */
#define PLEX_THREAD_SIZE 288
#define PLEX_TREE_SIZE 426
#define PLEX_SIGNAL_SIZE 53
#define PLEX_EVENT_SIZE 55
#define PLEX_ANSWER_SIZE 2 /* code, detail */
#define PLEX_MET_SIZE 8    /* what the walk writes to: one thread number a byte */

/* ---- Where the fields lie. */

/* In a record of the image. */
enum {
    PLEX_RECORD_OPCODE = 0,
    PLEX_RECORD_BLOCK = 1,
    PLEX_RECORD_ENTRY = 2,
    PLEX_RECORD_OPERATOR = 3,
    PLEX_RECORD_A = 4,
    PLEX_RECORD_B = 6, /* labels, 2 bytes each */
    PLEX_RECORD_COUNT = 8,
    PLEX_RECORD_OPERANDS = 9 /* 25 operands of 3 bytes */
};

/* In an operand; the value has 2 bytes. */
enum { PLEX_OPERAND_KIND = 0, PLEX_OPERAND_VALUE = 1 };

/* In a record of the block table. */
enum { PLEX_ROW_THREAD = 0, PLEX_ROW_KIND = 1, PLEX_ROW_LOCK = 2 };

/* In the state. */
enum { PLEX_STATE_WORDS = 0, PLEX_STATE_THREADS = 512, PLEX_STATE_TREE_COUNT = 2816, PLEX_STATE_TREES = 2817 };

/* In a thread record: bit k of the lock set is lock k, bit r of presence is register r, and the
 * oldest return label and the oldest held signal come first. A held signal was sent by
 * PLEX_SEND_TREE, and becomes a tree when its job ends by EXIT. */
enum {
    PLEX_THREAD_LABEL = 0,
    PLEX_THREAD_LOCKS = 2,
    PLEX_THREAD_RETURN_COUNT = 4,
    PLEX_THREAD_RETURNS = 5,
    PLEX_THREAD_PRESENCE = 21,
    PLEX_THREAD_VALUES = 25,
    PLEX_THREAD_HELD_COUNT = 75,
    PLEX_THREAD_HELD = 76 /* 4 signals */
};
#define PLEX_IDLE 65535 /* the label of an idle thread */

/* In a tree record, and in a signal; the oldest signal comes first. */
enum { PLEX_TREE_THREAD = 0, PLEX_TREE_PENDING = 1, PLEX_TREE_SIGNALS = 2 };
enum { PLEX_SIGNAL_LABEL = 0, PLEX_SIGNAL_COUNT = 2, PLEX_SIGNAL_VALUES = 3 };

/* In an event: from its label on, it is laid out as a signal. In an answer. */
enum { PLEX_EVENT_KIND = 0, PLEX_EVENT_THREAD = 1, PLEX_EVENT_SIGNAL = 2 };
enum { PLEX_ANSWER_CODE = 0, PLEX_ANSWER_DETAIL = 1 };

/* ---- What the fields hold. */

/* Opcodes. A packed number is four decimal digits in 16 bits, four bits each, the highest first: 1,234
 * packed is 0x1234. */
enum {
    PLEX_SKIP = 1,          /* on to A */
    PLEX_ASSIGN = 2,        /* operands destination, p, and q except for copy; on to A */
    PLEX_GOTO = 3,          /* on to A */
    PLEX_IF = 4,            /* operands p, q; A if it holds, else B */
    PLEX_SEND_DIRECT = 5,   /* to A */
    PLEX_SEND_BUFFERED = 6, /* to A, on to B */
    PLEX_CALL = 7,          /* to A, return label B */
    PLEX_RETURN = 8,        /* to the newest return label */
    PLEX_TRANSFER = 9,      /* to A, in its own block */
    PLEX_EXIT = 10,
    PLEX_SEND_TREE = 11,  /* SEND JOBTREE to A, on to B: the signal is held, and founds a tree at EXIT */
    PLEX_DIVIDE = 12,     /* operands quotient destination, remainder destination (a different one), p, q; on to A.
                           * p = q x quotient + remainder, with the remainder below q; a zero q is a trap */
    PLEX_PACK = 13,       /* operands destination, p; on to A. The number p, packed; p above 9,999 is a trap */
    PLEX_UNPACK = 14,     /* operands destination, p; on to A. The packed number p, as a number; a digit above 9 is
                           * a trap */
    PLEX_DECIMAL_ADD = 15 /* operands destination, p, q; on to A. The sum of packed numbers modulo 10,000, packed;
                           * a digit above 9 is a trap */
};

/* Operators of ASSIGN and of IF. Sum and product go modulo 65,536; a difference below zero is a trap. */
enum { PLEX_COPY = 1, PLEX_ADD = 2, PLEX_SUBTRACT = 3, PLEX_MULTIPLY = 4 };
enum { PLEX_EQUAL = 1, PLEX_LESS = 2 };

/* Entries of a record: how a signal may come in at its label. */
enum { PLEX_NO_ENTRY = 0, PLEX_DIRECT = 1, PLEX_BUFFERED = 2, PLEX_EXTERNAL = 3 };

/* Kinds of operands, of blocks and of events. */
enum { PLEX_NUMBER_OPERAND = 1, PLEX_REGISTER_OPERAND = 2, PLEX_WORD_OPERAND = 3 };
enum { PLEX_FD = 0, PLEX_CMX = 1 };
enum { PLEX_ARRIVAL = 1, PLEX_STEP = 2, PLEX_CUT = 3 };

/* Codes of an answer; the detail is zero where none is named. */
enum {
    PLEX_ARRIVED = 1,        /* arrival: a new tree at the list's end */
    PLEX_LIST_FULL = 2,      /* arrival: 16 trees live, no change */
    PLEX_NO_WORK = 3,        /* step: idle thread, empty queue, no change */
    PLEX_WAITING = 4,        /* step: another thread holds the lock, no change; detail: the lock */
    PLEX_STARTED = 5,        /* step: an idle thread took its first tree's oldest signal */
    PLEX_MOVED_ON = 6,       /* step: the job goes on */
    PLEX_EXITED = 7,         /* step: the job ended by EXIT; detail: the number of held signals lost */
    PLEX_TRAPPED = 8,        /* step: the job ended by a trap; detail: the reason */
    PLEX_WAS_CUT = 9,        /* cut: the job ended */
    PLEX_NOTHING_TO_CUT = 10 /* cut: idle thread, no change */
};

/* Reasons of a trap, in the order in which they are tested. */
enum {
    PLEX_ABSENT_REGISTER = 1, /* an absent register is read */
    PLEX_BELOW_ZERO = 7,      /* ASSIGN subtract with q above p */
    PLEX_ZERO_DIVISOR = 8,    /* DIVIDE with q zero */
    PLEX_NOT_DECIMAL = 9,     /* PACK with p above 9,999; UNPACK or DECIMAL ADD with a digit above 9 */
    PLEX_NO_RETURN_LABEL = 2, /* RETURN with no return label */
    PLEX_RETURNS_FULL = 3,    /* CALL with 8 return labels */
    PLEX_PENDING_FULL = 4,    /* buffered SEND with 8 pending in the job's own tree */
    PLEX_HELD_FULL = 6,       /* SEND JOBTREE with 4 signals held */
    PLEX_FOREIGN_FD_BLOCK = 5 /* direct SEND or CALL to an FD block of another thread */
};

/* Refusal numbers. The place is 0 where none is named. */
enum {
    PLEX_BAD_IMAGE_LENGTH = 1,   /* image length is not 84 x n, n 1 to 512 */
    PLEX_BAD_TABLE_LENGTH = 2,   /* table is not 48 bytes */
    PLEX_BAD_TABLE_FIELD = 3,    /* table field out of range; place: the first such block */
    PLEX_BAD_RECORD = 4,         /* record breaks a rule; place: the first such label */
    PLEX_BAD_STATE_LENGTH = 5,   /* state is not 9,633 bytes */
    PLEX_BAD_STATE = 6,          /* state is not well formed */
    PLEX_BAD_EVENTS_LENGTH = 7,  /* events are not 55 x m bytes, m 0 to 1,024 */
    PLEX_BAD_EVENT = 8,          /* event breaks a rule; place: the first such index */
    PLEX_BAD_ANSWERS_LENGTH = 9, /* answers are not 2 x m bytes */
    PLEX_BAD_WORDS_LENGTH = 10,  /* initial words are not 512 bytes */
    PLEX_BAD_WALK_THREAD = 11,   /* the walk's thread is above 7 */
    PLEX_BAD_MET_LENGTH = 12,    /* the walk's buffer is not 8 bytes */
    PLEX_SHARED_BLOCK = 13,      /* both images name the same block: each has a record in it */
    PLEX_TOO_MANY_RECORDS = 14,  /* both images together have more than 512 records */
    PLEX_BAD_OUTPUT_LENGTH = 15  /* the output is not as long as both images together */
};

#ifdef __cplusplus
#define PLEX_NUMBER(result) (static_cast<uint32_t>(result) >> 16)
#define PLEX_PLACE(result) (static_cast<uint32_t>(result) & 0xFFFFu)
#else
#define PLEX_NUMBER(result) ((uint32_t)(result) >> 16)
#define PLEX_PLACE(result) ((uint32_t)(result)&0xFFFFu)
#endif

/* ---- The calls. */

/* The version of the library that is linked: major x 65,536 + minor x 256 + patch. It is
 * PLEX_VERSION_NUMBER if header and library are of one release. Is lent nothing, refuses nothing. */
uint32_t plex_version(void);

/* The image check. Returns 0 if the image and the table keep every rule, otherwise a refusal with
 * number 1 to 4. Alters nothing. */
uint32_t plex_check(const uint8_t *image, size_t image_len, const uint8_t *table, size_t table_len);

/* Makes a fresh machine: all threads idle, no trees, the initial words as shared words. Returns 0,
 * and has then written every byte of the state, whatever it held; otherwise a refusal with number
 * 1 to 5 or 10. Alters nothing else. */
uint32_t plex_fresh(const uint8_t *image, size_t image_len, const uint8_t *table, size_t table_len,
                    const uint8_t *words, size_t words_len, uint8_t *state, size_t state_len);

/* Run: carries the events out on the state, in their order, and writes code and detail of each
 * answer. Returns 0, and has then left a well-formed state and written every byte of the answers,
 * whatever they held; otherwise a refusal with number 1 to 9: no event is then carried out. Alters
 * nothing but the state and the answers. */
uint32_t plex_run(const uint8_t *image, size_t image_len, const uint8_t *table, size_t table_len, uint8_t *state,
                  size_t state_len, const uint8_t *events, size_t events_len, uint8_t *answers, size_t answers_len);

/* The walk along waits: writes the threads met from the given one on, each once, up to one that
 * does not wait or that waits for a thread already met, and PLEX_UNMET in the bytes after them. A
 * thread waits for another if its next step would be answered PLEX_WAITING and the other holds
 * that lock. Returns the count of threads written, 1 to 8, plus PLEX_RING exactly if a ring closed;
 * otherwise a refusal with number 1 to 6, 11 or 12. Alters nothing but the 8 bytes. */
uint32_t plex_walk(const uint8_t *image, size_t image_len, const uint8_t *table, size_t table_len, const uint8_t *state,
                   size_t state_len, uint32_t thread, uint8_t *met, size_t met_len);

#define PLEX_RING 256u
#define PLEX_UNMET 255

/* Link: two guests' images become one. The output is the first image and behind it the second, with
 * the first's record count added to each label of the second that its opcode uses. Returns 0, and
 * has then written every byte of the output, whatever it held; plex_check accepts it with the same
 * table. From a fresh machine, arrivals for one of the guests, with steps and cuts, give on the
 * output the answers, words and state that they give on that guest's own image from the same
 * initial words; but labels of the second guest, in events and state alike, are higher by the
 * first's record count. Otherwise returns a refusal with number 1 to 4 or 13 to 15; of two images
 * at fault by one number, the first counts. Numbers 1 and 4 do not say whose fault it is: the
 * first's exactly if plex_check of the first image and the table returns the same, else the
 * second's; the place of number 4 is a label of that image. Alters nothing but the output. */
uint32_t plex_link(const uint8_t *first, size_t first_len, const uint8_t *second, size_t second_len,
                   const uint8_t *table, size_t table_len, uint8_t *out, size_t out_len);

#ifdef __cplusplus
}
#endif

#endif
