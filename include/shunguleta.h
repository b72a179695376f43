/*
 * The planner for C and C++: reads, checks and writes tables, and plans them. The rules are in docs/RULES.md.
 *
 * What a call may be lent: any bytes as a table, any numbers as a workspace, any numbers beside them, and buffers of any length. What can't
 * be used is refused, and a refused call changes no buffer that it was lent. A length counts bytes, cells or figures, whichever the buffer
 * is of. A pointer may be NULL where its length is 0. What no call can check: a pointer has to be good for its length, and a buffer that a
 * call writes to may overlap no other buffer of that call.
 *
 * The archive libshunguleta.a is for x86-64. It is 16,766 bytes long, 11,178 of them code and constants. It has no data of its own and
 * keeps nothing between calls, so every call is reentrant: from any thread, from a signal handler. It needs memcpy and memset, and nothing
 * else: no allocation, no file, no lock.
 *
 * Bytes of stack that each call takes over the largest table, measured, with the C library's memcpy and memset in it:
 *
 *   check           224
 *   ask_task        256
 *   ask_mode        320
 *   ask_choice      416
 *   portion        1232
 *   take            848
 *   plan_whole     1376
 *   write_header     72
 *   write_task      152
 */
#ifndef SHUNGULETA_H
#define SHUNGULETA_H

#include <stddef.h>
#include <stdint.h>

#ifdef __cplusplus
extern "C" {
#endif

/* 10000 major + 100 minor + patch. The major number is 0 as long as calls change. */
#define SHUNGULETA_VERSION 200

/* The bytes of a block, and the most tasks, cores of a table and modes of a task. */
#define SHUNGULETA_BLOCK 512
#define SHUNGULETA_MOST_TASKS 32
#define SHUNGULETA_MOST_CORES 64
#define SHUNGULETA_MOST_MODES 16

/* The cells of a workspace for a table of so many tasks and cores, and for the largest table. */
#define SHUNGULETA_CELLS(tasks, cores) (((size_t)(tasks) + 1) * ((size_t)(cores) + 1))
#define SHUNGULETA_MOST_CELLS SHUNGULETA_CELLS(SHUNGULETA_MOST_TASKS, SHUNGULETA_MOST_CORES)

/* An answer. Number 0: not refused, and the values are those named at the call, in their order, 0 for the rest. Any other number is the
 * refusal's, `at` is the block of the table that it names, counted from 0, and the values are 0. */
struct shunguleta_reply {
    uint32_t number;
    uint32_t at;
    uint64_t values[3];
};

/* The refusal numbers. 2 to 6 and 8 to 13 name a block where they come from a table; all others, and those of the writers, name block 0. */
enum shunguleta_refusal {
    SHUNGULETA_LENGTH = 1,      /* length is 0 or no multiple of 512 */
    SHUNGULETA_CHECK = 2,       /* check wrong */
    SHUNGULETA_KIND = 3,        /* kind wrong for this block */
    SHUNGULETA_EDITION = 4,     /* edition unknown */
    SHUNGULETA_LIMITS = 5,      /* tasks, cores or common period beyond its limits */
    SHUNGULETA_UNUSED = 6,      /* an unused byte isn't zero */
    SHUNGULETA_BLOCKS = 7,      /* length isn't a header and a block per task */
    SHUNGULETA_NUMBER = 8,      /* task number isn't its position (writer: above 31) */
    SHUNGULETA_SHAPE = 9,       /* elasticity or mode count beyond limits (writer: also if the figures lent aren't three per mode) */
    SHUNGULETA_PERMITTED = 10,  /* permitted modes empty or beyond the count */
    SHUNGULETA_PERIOD = 11,     /* period zero or not dividing the common period */
    SHUNGULETA_WORK = 12,       /* work or span zero, span above work, or work above 64 periods */
    SHUNGULETA_LATE = 13,       /* mode can't meet its period */
    SHUNGULETA_NO_PLAN = 14,    /* no selection of permitted modes fits; of cells that others altered: column m of row 0 reads as the mark */
    SHUNGULETA_ROOM = 15,       /* a lent buffer is too short */
    SHUNGULETA_BEYOND = 16,     /* progress above the number of cells */
    SHUNGULETA_UNFILLED = 17,   /* progress below the number of cells when the plan is taken */
    SHUNGULETA_ALTERED = 18,    /* no permitted mode keeps a cell's cost: the cells aren't as portions over this table left them */
    SHUNGULETA_NONE_SUCH = 19   /* no such task or mode */
};

/* Checks a whole table. Values: tasks n, cores m, common period H.
 * Refusals: 1; of the header 2, 3, 4, 5, 6, 7; of each task's block in turn 2, 3, 8, 9, 10, 6 and of its modes in turn 11, 12, 13.
 * Every call that is lent a table makes these checks first, and gives these refusals before its own. */
struct shunguleta_reply shunguleta_check(const uint8_t *table, size_t table_length);

/* The numbers of a task, counted from 0. Values: elasticity, mode count, permitted modes (bit j allows mode j).
 * Refusals: the table's, then 19. */
struct shunguleta_reply shunguleta_ask_task(const uint8_t *table, size_t table_length, uint32_t task);

/* The figures of a mode as the table lists them; tasks and modes count from 0. Values: work, span, period.
 * Refusals: the table's, then 19. */
struct shunguleta_reply shunguleta_ask_mode(const uint8_t *table, size_t table_length, uint32_t task, uint32_t mode);

/* A mode as the planner sees it. Values: permitted (0 or 1), the cores that it needs, its cost; the last two also of a mode that is not
 * permitted. Refusals: the table's, then 19. */
struct shunguleta_reply shunguleta_ask_choice(const uint8_t *table, size_t table_length, uint32_t task, uint32_t mode);

/* Fills at most `budget` of the W = SHUNGULETA_CELLS(n, m) cells from number `progress` on, the first time from 0; cells past W and all
 * others keep what they hold. Value: the new progress, the smaller of progress + budget and W. Budget 0 fills none and answers the progress
 * given, so a loop up to W needs a budget of at least 1.
 * Refusals: the table's, then 15 (fewer than W cells), 16. */
struct shunguleta_reply shunguleta_portion(const uint8_t *table, size_t table_length, uint64_t *cells, size_t cells_length,
                                           uint32_t progress, uint32_t budget);

/* Takes the plan once progress is W, and writes one mode number per task to the front of `out`. Values: cores used, cost.
 * Refusals: the table's, then 15 (fewer than W cells), 15 (fewer than n bytes of `out`), 16, 17, 14, 18. */
struct shunguleta_reply shunguleta_take(const uint8_t *table, size_t table_length, const uint64_t *cells, size_t cells_length,
                                        uint32_t progress, uint8_t *out, size_t out_length);

/* Fills all cells and takes the plan, with one check of the table. Values: cores used, cost.
 * Refusals: the table's, then 15 (fewer than W cells), 15 (fewer than n bytes of `out`), 14; under each of them the cells too are as they
 * were. */
struct shunguleta_reply shunguleta_plan_whole(const uint8_t *table, size_t table_length, uint64_t *cells, size_t cells_length,
                                              uint8_t *out, size_t out_length);

/* Writes a header block over the first 512 bytes of `out`. No values.
 * Refusals: 5, 15. */
struct shunguleta_reply shunguleta_write_header(uint16_t tasks, uint16_t cores, uint32_t common_period, uint8_t *out, size_t out_length);

/* Writes a task's block over the first 512 bytes of `out`; `common_period` is the table's, and `figures` has work, span and period of each
 * mode in turn, three for each. No values.
 * Refusals: 5 (common period), 8, 9, 10, of each mode in turn 11, 12, 13; then 15. */
struct shunguleta_reply shunguleta_write_task(uint32_t common_period, uint16_t number, uint8_t elasticity, uint8_t modes,
                                              uint16_t permitted, const uint32_t *figures, size_t figures_length, uint8_t *out,
                                              size_t out_length);

#ifdef __cplusplus
}
#endif

#endif
