/* SPDX-License-Identifier: MIT OR Apache-2.0 */
/* ---- Points at memory, where the program was compiled for them (kit/points.c), and races: two accesses of one place by two threads, one of them a
 * write and not both atomic, that no call orders. What orders accesses is followed by vector clocks: each thread counts what it gives others, and
 * has of each other thread the count up to which that thread's accesses come before its own. */
#include "posix.h"

enum { MOST_RACERS = 64, CELLS = 1 << 16, ORDERS = 1 << 13, READERS = 4, CELL = 8, ROOM_IN_TABLE = 8 };

/* How memory is touched (kit/points.c has the same). */
enum { WRITES = 1, IS_ATOMIC = 2, ACQUIRES = 4, RELEASES = 8 };

/* The last access of a thread to these bytes of a cell. */
struct access {
    const void *place;
    uint32_t clock;      /* 0: none */
    uint16_t thread;
    uint8_t bytes;
    bool is_atomic;
};

/* Eight bytes: who wrote them last, and some of those that read them since. */
struct cell {
    uintptr_t at;
    struct access write, reads[READERS];
    uint8_t next;
};

/* What comes before whoever takes, waits for or reads what is at this address. */
struct order {
    uintptr_t at;
    uint32_t clocks[MOST_RACERS];
};

static struct {
    struct cell *cells;
    struct order *orders;
    uint32_t *used;                            /* cells, in the order in which they came */
    uint32_t cells_count, orders_count;
    uint32_t clocks[MOST_RACERS][MOST_RACERS]; /* of each thread */
} memory;

static size_t slot_of(uintptr_t at, size_t slots)
{
    return (size_t)((uint64_t)at * UINT64_C(0x9E3779B97F4A7C15) >> 40) & (slots - 1);
}

/* The cell that begins here, which is made where `makes`; null where there is none, or no room. (A table keeps an eighth free.) */
static struct cell *cell_at(uintptr_t at, bool makes)
{
    size_t slot = slot_of(at, CELLS);
    while (memory.cells[slot].at != 0 && memory.cells[slot].at != at)
        slot = (slot + 1) % CELLS;
    if (memory.cells[slot].at == 0 && (!makes || memory.cells_count >= CELLS - CELLS / ROOM_IN_TABLE))
        return NULL;
    if (memory.cells[slot].at == 0)
        memory.used[memory.cells_count++] = (uint32_t)slot;
    memory.cells[slot].at = at;
    return &memory.cells[slot];
}

static struct order *order_at(uintptr_t at)
{
    size_t slot = slot_of(at, ORDERS);
    while (memory.orders[slot].at != 0 && memory.orders[slot].at != at)
        slot = (slot + 1) % ORDERS;
    if (memory.orders[slot].at == 0 && memory.orders_count >= ORDERS - ORDERS / ROOM_IN_TABLE)
        return NULL;
    memory.orders_count += memory.orders[slot].at == 0;
    memory.orders[slot].at = at;
    return &memory.orders[slot];
}

static void join_clocks(uint32_t *to, const uint32_t *from)
{
    for (uint32_t i = 0; i < MOST_RACERS; i++)
        to[i] = to[i] > from[i] ? to[i] : from[i];
}

static uint32_t *my_clocks(void)
{
    uint32_t *mine = memory.clocks[me->number];
    mine[me->number] += mine[me->number] == 0;
    return mine;
}

/* What the caller did comes before what others do that come after this address, or the other way round. */
static void order_by(const volatile void *at, unsigned how)
{
    if (memory.cells == NULL || me == NULL || me->number >= MOST_RACERS)
        return;
    struct order *it = order_at((uintptr_t)at);
    uint32_t *mine = my_clocks();
    if (it != NULL && (how & ACQUIRES) != 0)
        join_clocks(mine, it->clocks);
    if (it != NULL && (how & RELEASES) != 0) {
        join_clocks(it->clocks, mine);
        mine[me->number]++;
    }
}

/* ---- Races. */

static bool is_before(const struct access *it)
{
    return it->clock == 0 || it->thread == me->number || it->clock <= my_clocks()[it->thread];
}

struct race {
    const struct access *first;
    const char *did;
    unsigned how;
    uintptr_t at;
    const void *place;
};

static void write_race(struct report *to, const char *at)
{
    const struct race *it = (const void *)at;
    ntw_add(to, "ntwin: t%u %s memory at %p", me->number, (it->how & WRITES) != 0 ? "writes" : "reads", (const void *)it->at);
    write_place_in(to, it->place);
    ntw_add(to, "\n  t%u %s it", it->first->thread, it->did);
    write_place_in(to, it->first->place);
    add_text(to, ", and no call orders the two\n");
}

static void look_for_race(const struct access *first, const char *did, uintptr_t at, unsigned how, uint8_t bytes, const void *place)
{
    const struct race race = { first, did, how, at, place };
    if (is_before(first) || (first->bytes & bytes) == 0 || (first->is_atomic && (how & IS_ATOMIC) != 0) || schedule.passes_races)
        return;
    me->is_choosing = true;
    look_whether_all_fitted();
    end_run(RACES, text_written_by(write_race, (const char *)&race));
}

static void note_read(struct cell *cell, const struct access *mine)
{
    for (uint32_t i = 0; i < READERS; i++)
        if (cell->reads[i].clock == 0 || cell->reads[i].thread == mine->thread || is_before(&cell->reads[i])) {
            cell->reads[i] = *mine;
            return;
        }
    cell->reads[cell->next++ % READERS] = *mine;
}

static void touch_cell(uintptr_t at, uint8_t bytes, unsigned how, const void *place)
{
    struct cell *cell = cell_at(at, true);
    const struct access mine = { place, my_clocks()[me->number], (uint16_t)me->number, bytes, (how & IS_ATOMIC) != 0 };
    if (cell == NULL)
        return;
    look_for_race(&cell->write, "wrote", at, how, bytes, place);
    for (uint32_t i = 0; i < READERS && (how & WRITES) != 0; i++)
        look_for_race(&cell->reads[i], "read", at, how, bytes, place);
    if ((how & WRITES) != 0)
        cell->write = mine;
    else
        note_read(cell, &mine);
}

/* The program is about to touch this memory: a point comes first. */
static void touch_memory(const volatile void *from, size_t size, unsigned how, const void *place)
{
    const uintptr_t start = (uintptr_t)from, end = start + size;
    if (!comes_to(NULL))
        return;
    for (uintptr_t at = start / CELL * CELL; at < end; at += CELL)
        touch((const void *)at, (how & WRITES) != 0);
    for (uintptr_t at = start / CELL * CELL; at < end && me->number < MOST_RACERS; at += CELL) {
        const unsigned below = at < start ? (unsigned)(start - at) : 0, above = at + CELL > end ? (unsigned)(end - at) : CELL;
        touch_cell(at, (uint8_t)((0xFFu << below & 0xFFu) & 0xFFu >> (CELL - above)), how, place);
    }
    if ((how & (ACQUIRES | RELEASES)) != 0)
        order_by(from, how);
}

/* Whether what orders accesses matters. */
NTW_INTERNAL bool follows_races(void)
{
    return memory.cells != NULL && !schedule.passes_races;
}

/* This memory may be another thing from now on. */
static void forget_memory(uintptr_t from, size_t size)
{
    for (uint32_t i = 0; i < memory.cells_count; i++) {
        struct cell *cell = &memory.cells[memory.used[i]];
        if (cell->at - from < size)
            *cell = (struct cell){ .at = cell->at };
    }
}

extern size_t malloc_usable_size(void *block); /* (As malloc.h has it, which a test can't include that stands in for malloc.) */

NTW_INTERNAL void hooked_free(void *block)
{
    if (block != NULL && memory.cells != NULL && me != NULL && !is_apart())
        forget_memory((uintptr_t)block / CELL * CELL, malloc_usable_size(block) + CELL);
    (real.free)(block);
}

NTW_INTERNAL void *hooked_realloc(void *block, size_t size)
{
    if (block != NULL && memory.cells != NULL && me != NULL && !is_apart())
        forget_memory((uintptr_t)block / CELL * CELL, malloc_usable_size(block) + CELL);
    return (real.realloc)(block, size);
}

/* The caller begins as this thread: after what its maker did, and nothing is known of its stack, which another thread may have had. */
NTW_INTERNAL void begin_in_memory(const struct scheduled *it)
{
    pthread_attr_t attributes;
    void *start;
    size_t size;
    if (memory.cells == NULL)
        return;
    tell_after(it);
    if (pthread_getattr_np(pthread_self(), &attributes) != 0)
        return;
    if (pthread_attr_getstack(&attributes, &start, &size) == 0)
        forget_memory((uintptr_t)start, size);
    pthread_attr_destroy(&attributes);
}

NTW_INTERNAL void begin_memory(void)
{
    if (!has_points())
        return;
    memory.cells = reserve(CELLS * sizeof *memory.cells, MAP_PRIVATE);
    memory.used = reserve(CELLS * sizeof *memory.used, MAP_PRIVATE);
    memory.orders = reserve(ORDERS * sizeof *memory.orders, MAP_PRIVATE);
    ntwin_points.touch = touch_memory;
    ntwin_points.order = order_by;
}
