/* Writes the sample table of docs/RULES.md, plans it in portions of 7 cells and prints the plan, as the program `plan` does. The workspace
 * has room for the largest table, so the loop goes to the cells of this one. */
#include <inttypes.h>
#include <stdio.h>

#include "shunguleta.h"

enum { TASKS = 2, CORES = 4, COMMON_PERIOD = 1000 };

static int refused(struct shunguleta_reply reply)
{
    if (reply.number != 0)
        printf("refused %" PRIu32 " at %" PRIu32 "\n", reply.number, reply.at);
    return reply.number != 0;
}

int main(void)
{
    static const uint32_t first[] = {1800, 200, 1000, 900, 200, 1000};
    static const uint32_t second[] = {1400, 200, 500, 1400, 200, 1000, 700, 100, 500};
    static uint64_t cells[SHUNGULETA_MOST_CELLS];
    uint8_t table[(TASKS + 1) * SHUNGULETA_BLOCK];
    uint8_t modes[TASKS];

    if (refused(shunguleta_write_header(TASKS, CORES, COMMON_PERIOD, table, SHUNGULETA_BLOCK)) ||
        refused(shunguleta_write_task(COMMON_PERIOD, 0, 1, 2, 3, first, 6, table + SHUNGULETA_BLOCK, SHUNGULETA_BLOCK)) ||
        refused(shunguleta_write_task(COMMON_PERIOD, 1, 2, 3, 7, second, 9, table + 2 * SHUNGULETA_BLOCK, SHUNGULETA_BLOCK)))
        return 1;

    uint32_t progress = 0;
    while (progress < SHUNGULETA_CELLS(TASKS, CORES)) {
        struct shunguleta_reply filled = shunguleta_portion(table, sizeof table, cells, SHUNGULETA_MOST_CELLS, progress, 7);
        if (refused(filled))
            return 1;
        progress = (uint32_t)filled.values[0];
    }

    struct shunguleta_reply plan = shunguleta_take(table, sizeof table, cells, SHUNGULETA_MOST_CELLS, progress, modes, TASKS);
    if (refused(plan))
        return 1;
    printf("plan %" PRIu64 " of %d cost %" PRIu64 "\n", plan.values[0], CORES, plan.values[1]);
    for (uint32_t task = 0; task < TASKS; task++) {
        struct shunguleta_reply choice = shunguleta_ask_choice(table, sizeof table, task, modes[task]);
        if (refused(choice))
            return 1;
        printf("%" PRIu32 " %d %" PRIu64 "\n", task, modes[task], choice.values[1]);
    }
    return 0;
}
