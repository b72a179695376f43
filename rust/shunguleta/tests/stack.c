/* Prints how many bytes of stack each call over the largest table takes: it runs on a stack that is filled with a pattern, and the bytes
 * from the deepest one that changed are counted, less those that a call of nothing changes. Calls are bound when the program starts (the
 * linker's -z now), so that binding them takes no part of it. */
#define _XOPEN_SOURCE 700
#include <stdio.h>
#include <string.h>
#include <ucontext.h>

#include "shunguleta.h"

enum { STACK = 1 << 20, PATTERN = 0xA5, BLOCK = 512, TASKS = 32, CORES = 64, COMMON = 100000, CELLS = (TASKS + 1) * (CORES + 1) };

static unsigned char stack[STACK];
static uint8_t table[(TASKS + 1) * BLOCK];
static uint64_t cells[CELLS];
static uint8_t modes[TASKS];
static uint8_t block[BLOCK];
static uint32_t figures[48];
static struct shunguleta_reply reply;
static ucontext_t caller, callee;

static void nothing(void)
{
}

static void check(void)
{
    reply = shunguleta_check(table, sizeof table);
}

static void ask_task(void)
{
    reply = shunguleta_ask_task(table, sizeof table, TASKS - 1);
}

static void ask_mode(void)
{
    reply = shunguleta_ask_mode(table, sizeof table, TASKS - 1, 15);
}

static void ask_choice(void)
{
    reply = shunguleta_ask_choice(table, sizeof table, TASKS - 1, 15);
}

static void portion(void)
{
    reply = shunguleta_portion(table, sizeof table, cells, CELLS, 0, CELLS);
}

static void take(void)
{
    reply = shunguleta_take(table, sizeof table, cells, CELLS, CELLS, modes, TASKS);
}

static void write_header(void)
{
    reply = shunguleta_write_header(TASKS, CORES, COMMON, block, BLOCK);
}

static void write_task(void)
{
    reply = shunguleta_write_task(COMMON, TASKS - 1, 10, 16, 65535, figures, 48, block, BLOCK);
}

static void plan_whole(void)
{
    reply = shunguleta_plan_whole(table, sizeof table, cells, CELLS, modes, TASKS);
}

static size_t depth(void (*call)(void))
{
    size_t untouched = 0;
    memset(stack, PATTERN, STACK);
    getcontext(&callee);
    callee.uc_stack.ss_sp = stack;
    callee.uc_stack.ss_size = STACK;
    callee.uc_link = &caller;
    makecontext(&callee, call, 0);
    swapcontext(&caller, &callee);
    while (untouched < STACK && stack[untouched] == PATTERN)
        untouched++;
    return STACK - untouched;
}

static int show(const char *name, void (*call)(void))
{
    size_t own = depth(call) - depth(nothing);
    printf("%s %u\n", name, (unsigned)own);
    return reply.number != 0;
}

int main(void)
{
    uint16_t task;
    uint32_t mode;
    int refused = 0;
    for (mode = 0; mode < 16; mode++) {
        figures[3 * mode] = COMMON + 1000 * (mode + 1);
        figures[3 * mode + 1] = 1000 * (mode + 1);
        figures[3 * mode + 2] = COMMON;
    }
    shunguleta_write_header(TASKS, CORES, COMMON, table, BLOCK);
    for (task = 0; task < TASKS; task++)
        shunguleta_write_task(COMMON, task, 10, 16, 65535, figures, 48, table + BLOCK * (task + 1), BLOCK);
    refused |= show("check", check);
    refused |= show("ask_task", ask_task);
    refused |= show("ask_mode", ask_mode);
    refused |= show("ask_choice", ask_choice);
    refused |= show("portion", portion);
    refused |= show("take", take);
    refused |= show("write_header", write_header);
    refused |= show("write_task", write_task);
    refused |= show("plan_whole", plan_whole);
    return refused;
}
