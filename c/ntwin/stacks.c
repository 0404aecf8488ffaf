/* SPDX-License-Identifier: MIT OR Apache-2.0 */
/* ---- Who called where a thread waits, where NTWIN_WHY asks for that. As its wait pends, a thread notes its registers, which takes some nanoseconds.
 * A report copies, under the lock, what stands on its stack; and once the lock is given back it walks that from frame to frame as debuggers do, by the
 * tables that compilers write for exceptions (.eh_frame). So programs need no frame pointers. The copy may be of a thread that has left its wait by
 * a way of its own (a canceled one): so each address is looked for in the copy alone, and unless the walk comes to where the wait was called, none is
 * named. On x86-64; elsewhere no caller is. */
#include "../schedule/internal.h"

/* Copies the stack that begins here, as much of it as is there. (By the system, since it may be gone.) */
static size_t copy_stack(uintptr_t begin, unsigned char *to, size_t room)
{
    const size_t page = 4096;
    const struct iovec here = { to, room };
    struct iovec there[STACK_COPIED / 4096 + 1];
    unsigned long parts = 0;
    for (uintptr_t at = begin; at < begin + room; parts++) {
        const uintptr_t end = (at | (page - 1)) + 1 < begin + room ? (at | (page - 1)) + 1 : begin + room;
        there[parts] = (struct iovec){ (void *)at, end - at };
        at = end;
    }
    const ssize_t count = process_vm_readv(getpid(), &here, 1, there, parts, 0);
    return count > 0 ? (size_t)count : 0;
}

/* Copies what is on the stack of this thread, whose wait pends, under the lock. */
NTW_INTERNAL void take_stack(const struct seat *seat, struct stack *it)
{
    it->registers = seat->registers;
    it->waits_at = seat->waits_at;
    it->start = seat->start;
    it->count = seat->registers.stack != 0 ? copy_stack(seat->registers.stack, it->bytes, sizeof it->bytes) : 0;
}

/* ---- The tables of a file that was loaded. */

/* Bytes of such a table: they end before `end`. */
struct bytes {
    const unsigned char *at, *end;
    bool is_over; /* more was read than there is */
};

static uint64_t read_bytes(struct bytes *from, size_t count)
{
    uint64_t value = 0;
    if (count > (size_t)(from->end - from->at)) {
        from->is_over = true;
        from->at = from->end;
        return 0;
    }
    memcpy(&value, from->at, count);
    from->at += count;
    return value;
}

/* A number in groups of seven bits, the lowest first. */
static uint64_t read_leb(struct bytes *from, bool is_signed)
{
    uint64_t value = 0, byte;
    unsigned shift = 0;
    do {
        byte = read_bytes(from, 1);
        value |= shift < 64 ? (byte & 0x7F) << shift : 0;
        shift += 7;
    } while ((byte & 0x80) != 0 && !from->is_over);
    if (is_signed && shift < 64 && (byte & 0x40) != 0)
        value |= ~UINT64_C(0) << shift;
    return value;
}

/* The rules of a frame: where the frame before it begins, and at which distance from there its registers stand. */
struct rules {
    unsigned base;     /* the register that it counts from */
    int64_t offset;
    bool is_saved[REGISTERS];
    int64_t saved[REGISTERS];
};

/* What is read of the frames of a function. */
struct function {
    uintptr_t begin, end;
    uint64_t code_unit;
    int64_t data_unit;
    struct bytes common, own;
};

/* Reads what functions have in common: it stands there. False where that is of a kind that is not known here. */
static bool read_common(const unsigned char *at, const unsigned char *end, struct function *it)
{
    struct bytes from = { at, end, false };
    const uint64_t length = read_bytes(&from, 4);
    if (length >= (size_t)(end - from.at))
        return false;
    from.end = from.at + length;
    if (read_bytes(&from, 4) != 0 || read_bytes(&from, 1) != 1)
        return false;
    const char *words = (const char *)from.at;
    const size_t count = strnlen(words, (size_t)(from.end - from.at));
    from.at += count;
    read_bytes(&from, 1);
    it->code_unit = read_leb(&from, false);
    it->data_unit = (int64_t)read_leb(&from, true);
    if (read_bytes(&from, 1) != AT_RETURN || words[0] != 'z')
        return false;
    struct bytes more = from;
    const uint64_t size = read_leb(&more, false);
    if (size > (size_t)(more.end - more.at) || memchr(words, 'S', count) != NULL || memchr(words, 'R', count) == NULL)
        return false;
    it->common = (struct bytes){ more.at + size, from.end, false };
    /* (Addresses are 4 bytes from where they stand: of another kind compilers write none. Its letter is the last.) */
    return !from.is_over && size > 0 && more.at[size - 1] == 0x1B && words[count - 1] == 'R';
}

/* Reads the entry of a function, which stands there. */
static bool read_function(const unsigned char *at, const unsigned char *begin, const unsigned char *end, struct function *it)
{
    struct bytes from = { at, end, false };
    const uint64_t length = read_bytes(&from, 4);
    if (length >= (size_t)(end - from.at))
        return false;
    from.end = from.at + length;
    const unsigned char *here = from.at;
    const uint64_t back = read_bytes(&from, 4);
    if (back > (size_t)(here - begin) || !read_common(here - back, end, it))
        return false;
    it->begin = (uintptr_t)from.at + (uintptr_t)(int32_t)read_bytes(&from, 4);
    it->end = it->begin + (uint32_t)read_bytes(&from, 4);
    const uint64_t size = read_leb(&from, false);
    if (size > (size_t)(from.end - from.at))
        return false;
    it->own = (struct bytes){ from.at + size, from.end, false };
    return !from.is_over;
}

/* Takes how a register is kept, by an instruction of this kind. False where there is no such register. */
static bool take_rule(struct bytes *from, unsigned kind, uint64_t name, const struct function *of, struct rules *rules, const struct rules *first)
{
    if (name >= REGISTERS)
        return false;
    rules->is_saved[name] = kind == 0x80 || (kind == 0xC0 && first->is_saved[name]);
    rules->saved[name] = kind == 0x80 ? (int64_t)read_leb(from, false) * of->data_unit : kind == 0xC0 ? first->saved[name] : 0;
    return true;
}

/* What a table that is carried out keeps for later. */
struct kept {
    struct rules rules[4];
    size_t depth;
};

static bool keep_or_go_back(struct kept *kept, bool keeps, struct rules *rules)
{
    if (kept->depth == (keeps ? sizeof kept->rules / sizeof *kept->rules : 0))
        return false;
    if (keeps)
        kept->rules[kept->depth++] = *rules;
    else
        *rules = kept->rules[--kept->depth];
    return true;
}

/* Carries out what a table says, up to this place. False where it says what is not known here. */
static bool follow_rules(struct bytes from, const struct function *of, uintptr_t place, struct rules *rules, const struct rules *first)
{
    struct kept kept = { .depth = 0 };
    bool is_known = true;
    for (uintptr_t at = of->begin; is_known && from.at < from.end && at <= place;) {
        const unsigned byte = (unsigned)read_bytes(&from, 1), low = byte & 0x3F;
        switch (byte >= 0x40 ? byte & 0xC0 : byte) {
        case 0x00: break;
        case 0x40: at += low * of->code_unit; break;
        case 0x02: at += read_bytes(&from, 1) * of->code_unit; break;
        case 0x03: at += read_bytes(&from, 2) * of->code_unit; break;
        case 0x04: at += read_bytes(&from, 4) * of->code_unit; break;
        case 0x80: case 0xC0: is_known = take_rule(&from, byte & 0xC0, low, of, rules, first); break;
        case 0x05: is_known = take_rule(&from, 0x80, read_leb(&from, false), of, rules, first); break;
        case 0x06: is_known = take_rule(&from, 0xC0, read_leb(&from, false), of, rules, first); break;
        case 0x08: is_known = take_rule(&from, 0, read_leb(&from, false), of, rules, first); break;
        case 0x0A: case 0x0B: is_known = keep_or_go_back(&kept, byte == 0x0A, rules); break;
        case 0x0C:
            rules->base = (unsigned)read_leb(&from, false);
            rules->offset = (int64_t)read_leb(&from, false);
            break;
        case 0x0D: rules->base = (unsigned)read_leb(&from, false); break;
        case 0x0E: rules->offset = (int64_t)read_leb(&from, false); break;
        case 0x2E: read_leb(&from, false); break;
        default: is_known = false;
        }
    }
    return is_known && !from.is_over;
}

/* What was loaded with this place: the sorted table of its functions, and the part that has their entries. */
struct table {
    const unsigned char *begin, *end, *frames, *last;
};

static bool find_table(const struct dl_phdr_info *info, struct table *it)
{
    for (int i = 0; i < info->dlpi_phnum; i++)
        if (info->dlpi_phdr[i].p_type == PT_GNU_EH_FRAME) {
            it->begin = (const unsigned char *)(info->dlpi_addr + info->dlpi_phdr[i].p_vaddr);
            it->end = it->begin + info->dlpi_phdr[i].p_memsz;
        }
    for (int i = 0; it->begin != NULL && i < info->dlpi_phnum; i++) {
        const ElfW(Phdr) *part = &info->dlpi_phdr[i];
        if (part->p_type == PT_LOAD && (uintptr_t)it->begin - info->dlpi_addr - part->p_vaddr < part->p_memsz) {
            it->frames = (const unsigned char *)(info->dlpi_addr + part->p_vaddr);
            it->last = it->frames + part->p_memsz;
        }
    }
    return it->frames != NULL;
}

/* Finds the entry of the function that this place is in, by the sorted table. */
static bool find_function(const struct table *table, uintptr_t place, struct function *it)
{
    struct bytes from = { table->begin, table->end, false };
    if (read_bytes(&from, 4) != 0x3B031B01) /* (As linkers write it: a version, and how its numbers are kept.) */
        return false;
    read_bytes(&from, 4);
    const uint64_t count = read_bytes(&from, 4);
    if (from.is_over || count > (size_t)(from.end - from.at) / 8)
        return false;
    size_t low = 0, high = (size_t)count;
    int32_t pair[2] = { 0, 0 };
    while (low < high) {
        const size_t middle = low + (high - low) / 2;
        memcpy(pair, from.at + middle * 8, sizeof pair);
        if ((uintptr_t)table->begin + (uintptr_t)(intptr_t)pair[0] <= place)
            low = middle + 1;
        else
            high = middle;
    }
    if (low == 0)
        return false;
    memcpy(pair, from.at + (low - 1) * 8, sizeof pair);
    const uintptr_t entry = (uintptr_t)table->begin + (uintptr_t)(intptr_t)pair[1];
    return entry >= (uintptr_t)table->frames && entry < (uintptr_t)table->last
        && read_function((const unsigned char *)entry, table->frames, table->last, it) && place >= it->begin && place < it->end;
}

/* ---- The walk. */

/* A frame of the stack: where its function is, and the registers there. */
struct frame {
    const struct stack *stack;
    uintptr_t place;      /* of the call under way; first the return address is that */
    uintptr_t registers[REGISTERS];
    uintptr_t function;   /* where the function begins */
    bool is_known;        /* it is in a table, and not in the system's own library */
    bool has_caller;      /* the registers are those of its caller now */
};

/* The word that stands at this address of the stack. False where the copy has none there. */
static bool read_word(const struct stack *stack, uintptr_t address, uintptr_t *word)
{
    const uintptr_t offset = address - stack->registers.stack;
    if (offset > stack->count || stack->count - offset < sizeof *word)
        return false;
    memcpy(word, stack->bytes + offset, sizeof *word);
    return true;
}

/* Goes from a frame of this function to that of its caller. False where it can't. */
static bool go_to_caller(struct frame *frame, const struct function *function)
{
    static const struct rules none;
    struct rules first = none, rules;
    uintptr_t registers[REGISTERS];
    if (!follow_rules(function->common, function, UINTPTR_MAX, &first, &none))
        return false;
    rules = first;
    if (!follow_rules(function->own, function, frame->place, &rules, &first) || (rules.base != AT_RSP && rules.base != AT_RBP))
        return false;
    const uintptr_t before = frame->registers[rules.base] + (uintptr_t)rules.offset;
    if (before <= frame->registers[AT_RSP] || !rules.is_saved[AT_RETURN])
        return false;
    memcpy(registers, frame->registers, sizeof registers);
    for (unsigned i = 0; i < REGISTERS; i++)
        if (rules.is_saved[i] && !read_word(frame->stack, before + (uintptr_t)rules.saved[i], &registers[i]))
            return false;
    memcpy(frame->registers, registers, sizeof registers);
    frame->registers[AT_RSP] = before;
    return frame->registers[AT_RETURN] != 0;
}

/* Goes on with the walk where the frame's place is in this. (The loader's lock is held: its tables stay.) */
static int walk_in(struct dl_phdr_info *info, size_t size, void *at)
{
    struct frame *frame = at;
    struct table table = { NULL, NULL, NULL, NULL };
    struct function function;
    (void)size;
    if (!ntw_is_in(info, frame->place))
        return 0;
    if (strstr(info->dlpi_name, "/libc.so") != NULL || !find_table(info, &table) || !find_function(&table, frame->place, &function))
        return 1;
    frame->is_known = true;
    frame->function = function.begin;
    frame->has_caller = go_to_caller(frame, &function);
    return 1;
}

/* Walks the stack. Answers how many callers there are of the function that waits, the innermost first: none unless the walk comes to that. (It ends
 * where the thread begins, or the system calls.) */
NTW_INTERNAL size_t find_callers(const struct stack *stack, uintptr_t callers[CALLERS_AT_MOST])
{
    const uintptr_t *saved = stack->registers.saved;
    struct frame frame = { .stack = stack, .place = stack->registers.place, .has_caller = stack->registers.place != 0,
                           .registers = { [3] = saved[0], [AT_RBP] = saved[1], [AT_RSP] = stack->registers.stack, [12] = saved[2], [13] = saved[3],
                                          [14] = saved[4], [15] = saved[5], [AT_RETURN] = stack->registers.place } };
    size_t count = 0;
    bool has_come = false;
    for (size_t i = 0; i < FRAMES_AT_MOST && count < CALLERS_AT_MOST && frame.has_caller; i++) {
        const uintptr_t back = frame.registers[AT_RETURN];
        frame.place = back - (i > 0);
        frame.is_known = frame.has_caller = false;
        dl_iterate_phdr(walk_in, &frame);
        if (!frame.is_known)
            break;
        if (has_come)
            callers[count++] = back;
        has_come |= back == (uintptr_t)stack->waits_at;
        if (frame.function == (uintptr_t)stack->start)
            break;
    }
    return count;
}
