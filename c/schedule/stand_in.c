/* SPDX-License-Identifier: MIT OR Apache-2.0 */
/* ---- A run begins, and the scheduler stands in for functions of POSIX: in each module of the process the places are written over by which it calls
 * them, as the loader filled them. So no name is defined twice, sanitizers and other libraries keep theirs, and without a scheduler nothing is
 * different. A call inside the C library, and a program that is linked with -static, has no such place. */
#include "posix.h"

static const struct {
    const char *name;
    function *instead;
    void *real; /* where the system's own is kept */
} stand_ins[] = {
#define STANDS_IN(name) { #name, (function *)hooked_##name, &real.name }
    STANDS_IN(__cxa_guard_acquire), STANDS_IN(__cxa_guard_release), STANDS_IN(accept), STANDS_IN(clock_gettime),
    STANDS_IN(clock_nanosleep), STANDS_IN(free), STANDS_IN(gettimeofday),
    STANDS_IN(nanosleep), STANDS_IN(poll), STANDS_IN(pthread_barrier_destroy), STANDS_IN(pthread_barrier_init), STANDS_IN(pthread_barrier_wait),
    STANDS_IN(pthread_clockjoin_np), STANDS_IN(pthread_cond_broadcast), STANDS_IN(pthread_cond_clockwait), STANDS_IN(pthread_cond_signal),
    STANDS_IN(pthread_cond_timedwait), STANDS_IN(pthread_cond_wait), STANDS_IN(pthread_create), STANDS_IN(pthread_join),
    STANDS_IN(pthread_mutex_clocklock), STANDS_IN(pthread_mutex_lock), STANDS_IN(pthread_mutex_timedlock), STANDS_IN(pthread_mutex_trylock),
    STANDS_IN(pthread_mutex_unlock), STANDS_IN(pthread_once), STANDS_IN(pthread_rwlock_clockrdlock), STANDS_IN(pthread_rwlock_clockwrlock),
    STANDS_IN(pthread_rwlock_rdlock), STANDS_IN(pthread_rwlock_timedrdlock), STANDS_IN(pthread_rwlock_timedwrlock),
    STANDS_IN(pthread_rwlock_tryrdlock), STANDS_IN(pthread_rwlock_trywrlock), STANDS_IN(pthread_rwlock_unlock), STANDS_IN(pthread_rwlock_wrlock),
    STANDS_IN(pthread_spin_lock), STANDS_IN(pthread_spin_trylock), STANDS_IN(pthread_spin_unlock), STANDS_IN(pthread_timedjoin_np),
    STANDS_IN(pthread_tryjoin_np), STANDS_IN(read), STANDS_IN(realloc), STANDS_IN(recv), STANDS_IN(sched_yield), STANDS_IN(select),
    STANDS_IN(sem_clockwait),
    STANDS_IN(sem_post), STANDS_IN(sem_timedwait), STANDS_IN(sem_trywait), STANDS_IN(sem_wait), STANDS_IN(sleep), STANDS_IN(syscall),
    STANDS_IN(time), STANDS_IN(usleep),
};

enum { STAND_INS = sizeof stand_ins / sizeof *stand_ins };

#if defined __x86_64__
enum { OF_CALL = R_X86_64_JUMP_SLOT, OF_ADDRESS = R_X86_64_GLOB_DAT, OF_DATA = R_X86_64_64 };
#elif defined __aarch64__
enum { OF_CALL = R_AARCH64_JUMP_SLOT, OF_ADDRESS = R_AARCH64_GLOB_DAT, OF_DATA = R_AARCH64_ABS64 };
#else
enum { OF_CALL = -1, OF_ADDRESS = -1, OF_DATA = -1 };
#endif

/* A module as the loader has it. */
struct linked {
    ElfW(Addr) base;
    const ElfW(Sym) *symbols;
    const char *names;
    const ElfW(Rela) *places[2]; /* of data, and of calls */
    size_t sizes[2];
    const ElfW(Phdr) *headers;
    size_t headers_count;
};

/* Which of them it is; STAND_INS where it is none. */
static size_t stand_in_of(const char *name)
{
    size_t from = 0, to = STAND_INS;
    while (from < to) {
        const size_t middle = (from + to) / 2;
        const int order = strcmp(name, stand_ins[middle].name);
        if (order == 0)
            return middle;
        if (order < 0)
            to = middle;
        else
            from = middle + 1;
    }
    return STAND_INS;
}

static void write_over(const struct linked *module, ElfW(Addr) at, function *instead)
{
    const size_t page = (size_t)sysconf(_SC_PAGESIZE);
    bool is_closed = false;
    for (size_t i = 0; i < module->headers_count; i++)
        is_closed |= module->headers[i].p_type == PT_GNU_RELRO && at - (module->base + module->headers[i].p_vaddr) < module->headers[i].p_memsz;
    void *start = (void *)(at & ~(ElfW(Addr))(page - 1));
    if (is_closed && mprotect(start, page, PROT_READ | PROT_WRITE) != 0)
        return;
    memcpy((void *)at, &instead, sizeof instead);
    if (is_closed)
        mprotect(start, page, PROT_READ);
}

static void stand_in_at(const struct linked *module, const ElfW(Rela) *it)
{
    const int type = (int)(it->r_info & 0xFFFFFFFF);
    const ElfW(Sym) *symbol = &module->symbols[it->r_info >> 32];
    if ((type != OF_CALL && type != OF_ADDRESS && (type != OF_DATA || it->r_addend != 0)) || it->r_info >> 32 == 0 || symbol->st_shndx != SHN_UNDEF)
        return;
    const size_t which = stand_in_of(module->names + symbol->st_name);
    if (which < STAND_INS && stand_ins[which].instead != NULL)
        write_over(module, module->base + it->r_offset, stand_ins[which].instead);
}

static void read_module(struct linked *module, const ElfW(Dyn) *it)
{
    for (; it->d_tag != DT_NULL; it++)
        switch (it->d_tag) {
        case DT_SYMTAB: module->symbols = address_in(module->base, it->d_un.d_ptr); break;
        case DT_STRTAB: module->names = address_in(module->base, it->d_un.d_ptr); break;
        case DT_RELA: module->places[0] = address_in(module->base, it->d_un.d_ptr); break;
        case DT_RELASZ: module->sizes[0] = it->d_un.d_val; break;
        case DT_JMPREL: module->places[1] = address_in(module->base, it->d_un.d_ptr); break;
        case DT_PLTRELSZ: module->sizes[1] = it->d_un.d_val; break;
        default: break;
        }
}

/* The system's own modules, the sanitizers', and what unwinds stacks, call what they always do. */
static bool is_left_alone(const char *path)
{
    static const char *const left[] = { "ld-linux", "ld.so", "libc.so", "libpthread", "libm.so", "libdl.so", "librt.so", "libgcc_s", "libtsan",
                                        "libasan",
                                        "liblsan", "libubsan", "linux-vdso", "libntwin.so", "vgpreload" };
    const char *name = strrchr(path, '/') != NULL ? strrchr(path, '/') + 1 : path;
    for (size_t i = 0; i < sizeof left / sizeof *left; i++)
        if (strncmp(name, left[i], strlen(left[i])) == 0)
            return true;
    return false;
}

static int stand_in_module(struct dl_phdr_info *info, size_t size, void *with)
{
    struct linked module = { .base = info->dlpi_addr, .headers = info->dlpi_phdr, .headers_count = info->dlpi_phnum };
    (void)size;
    (void)with;
    if (is_left_alone(info->dlpi_name))
        return 0;
    for (size_t i = 0; i < module.headers_count; i++)
        if (module.headers[i].p_type == PT_DYNAMIC)
            read_module(&module, (const void *)(module.base + module.headers[i].p_vaddr));
    for (int kind = 0; kind < 2 && module.symbols != NULL; kind++)
        for (size_t i = 0; i < module.sizes[kind] / sizeof(ElfW(Rela)) && module.places[kind] != NULL; i++)
            stand_in_at(&module, &module.places[kind][i]);
    return 0;
}

/* Where one is lacking (a C library before 2.30), nobody calls it. */
NTW_INTERNAL void stand_in_for_all(void)
{
    for (size_t i = 0; i < STAND_INS; i++) {
        void *own = dlsym(RTLD_DEFAULT, stand_ins[i].name);
        memcpy(stand_ins[i].real, &own, sizeof own);
    }
    dl_iterate_phdr(stand_in_module, NULL);
}
