/* SPDX-License-Identifier: MIT OR Apache-2.0 */
/* ---- Processors: one group and one node, the first 64 of them in a mask. */
#include "internal.h"
#include <dirent.h>

DWORD GetCurrentProcessorNumber(void)
{
    const int processor = sched_getcpu();
    return processor < 0 ? 0 : (DWORD)processor;
}

void GetCurrentProcessorNumberEx(PPROCESSOR_NUMBER number)
{
    *number = (PROCESSOR_NUMBER){ .Number = (BYTE)GetCurrentProcessorNumber() };
}

/* A bit for each of this number of processors, of 64 at the most. */
NTW_INTERNAL DWORD_PTR mask_of(long processors)
{
    return processors >= MAXIMUM_PROCESSORS ? ~(DWORD_PTR)0 : ((DWORD_PTR)1 << processors) - 1;
}

/* The processors on which this thread of the system may run. */
static DWORD_PTR processors_of(pid_t task)
{
    cpu_set_t set;
    DWORD_PTR mask = 0;
    if (sched_getaffinity(task, sizeof set, &set) != 0)
        return mask_of(sysconf(_SC_NPROCESSORS_ONLN));
    for (int i = 0; i < MAXIMUM_PROCESSORS; i++)
        if (CPU_ISSET(i, &set))
            mask |= (DWORD_PTR)1 << i;
    return mask;
}

/* The processors on which the process may run: those that were set, or those of its first thread, when that was asked first. */
static _Atomic DWORD_PTR processors_found;

NTW_INTERNAL DWORD_PTR processors_here(void)
{
    DWORD_PTR mask = atomic_load_explicit(&processors_found, memory_order_relaxed);
    if (mask == 0) {
        mask = processors_of(getpid());
        atomic_store_explicit(&processors_found, mask, memory_order_relaxed);
    }
    return mask;
}

static DWORD_PTR processors_of_all(void)
{
    return mask_of(sysconf(_SC_NPROCESSORS_ONLN)) | processors_here();
}

BOOL GetProcessAffinityMask(HANDLE process_handle, PDWORD_PTR process_mask, PDWORD_PTR system_mask)
{
    if (process_handle != CURRENT_PROCESS)
        return ntw_fail(ERROR_INVALID_HANDLE);
    *process_mask = processors_here();
    *system_mask = processors_of_all();
    return TRUE;
}

static cpu_set_t set_of(DWORD_PTR mask)
{
    cpu_set_t set;
    CPU_ZERO(&set);
    for (int i = 0; i < MAXIMUM_PROCESSORS; i++)
        if ((mask >> i & 1) != 0)
            CPU_SET(i, &set);
    return set;
}

/* All threads run on these processors alone, as do those that they create. */
BOOL SetProcessAffinityMask(HANDLE process_handle, DWORD_PTR mask)
{
    const cpu_set_t set = set_of(mask);
    if (process_handle != CURRENT_PROCESS)
        return ntw_fail(ERROR_INVALID_HANDLE);
    if (mask == 0 || (mask & ~processors_of_all()) != 0 || sched_setaffinity(0, sizeof set, &set) != 0)
        return ntw_fail(ERROR_INVALID_PARAMETER);
    DIR *tasks = opendir("/proc/self/task");
    for (const struct dirent *task; tasks != NULL && (task = readdir(tasks)) != NULL;)
        if (task->d_name[0] != '.')
            sched_setaffinity((pid_t)atoi(task->d_name), sizeof set, &set);
    if (tasks != NULL)
        closedir(tasks);
    atomic_store_explicit(&processors_found, mask, memory_order_relaxed);
    return TRUE;
}

/* The system's number of the thread that this handle names; 0, with the last error set, where it names none or the thread has ended. */
static pid_t task_of(HANDLE thread)
{
    for (;;) {
        struct seat *caller, *seat = begin_with_thread(thread, &caller);
        if (seat == NULL)
            return 0;
        const pid_t task = seat->life.task;
        const bool has_left = seat->has_left;
        unlock_and_wake(caller);
        if (has_left) {
            ntw_fail(ERROR_ACCESS_DENIED);
            return 0;
        }
        if (task != 0)
            return task;
        /* (It was just created, and has no number yet.) */
        yield_to_others();
    }
}

/* Puts the thread on these processors of this machine. Answers those on which it was, or 0, with the last error set. */
static DWORD_PTR put_thread_on(HANDLE thread, DWORD_PTR mask)
{
    const cpu_set_t set = set_of(mask);
    const DWORD_PTR all = processors_here();
    const pid_t task = task_of(thread);
    if (task == 0)
        return 0;
    const DWORD_PTR before = processors_of(task);
    if (mask == 0 || (mask & ~all) != 0 || sched_setaffinity(task, sizeof set, &set) != 0) {
        ntw_fail(ERROR_INVALID_PARAMETER);
        return 0;
    }
    return before;
}

/* (All bits stand for all processors there are.) */
DWORD_PTR SetThreadAffinityMask(HANDLE thread, DWORD_PTR mask)
{
    return put_thread_on(thread, mask == ~(DWORD_PTR)0 ? processors_here() : mask);
}

BOOL GetThreadGroupAffinity(HANDLE thread, PGROUP_AFFINITY affinity)
{
    const pid_t task = task_of(thread);
    if (task == 0)
        return FALSE;
    *affinity = (GROUP_AFFINITY){ .Mask = processors_of(task) };
    return TRUE;
}

BOOL SetThreadGroupAffinity(HANDLE thread, const GROUP_AFFINITY *affinity, PGROUP_AFFINITY before)
{
    if (affinity->Group != 0)
        return ntw_fail(ERROR_INVALID_PARAMETER);
    const DWORD_PTR mask = put_thread_on(thread, affinity->Mask);
    if (mask == 0)
        return FALSE;
    if (before != NULL)
        *before = (GROUP_AFFINITY){ .Mask = mask };
    return TRUE;
}

/* So many, or 0 where there is no such group. */
static DWORD processors_in(WORD group, long processors)
{
    if (group == 0 || group == ALL_PROCESSOR_GROUPS)
        return (DWORD)processors;
    ntw_fail(ERROR_INVALID_PARAMETER);
    return 0;
}

DWORD GetActiveProcessorCount(WORD group)
{
    return processors_in(group, sysconf(_SC_NPROCESSORS_ONLN));
}

DWORD GetMaximumProcessorCount(WORD group)
{
    return processors_in(group, sysconf(_SC_NPROCESSORS_CONF));
}

WORD GetActiveProcessorGroupCount(void)
{
    return 1;
}

WORD GetMaximumProcessorGroupCount(void)
{
    return 1;
}

BOOL GetNumaHighestNodeNumber(PULONG highest)
{
    *highest = 0;
    return TRUE;
}

BOOL GetNumaNodeProcessorMask(UCHAR node, PULONGLONG mask)
{
    if (node != 0)
        return ntw_fail(ERROR_INVALID_PARAMETER);
    *mask = mask_of(sysconf(_SC_NPROCESSORS_ONLN));
    return TRUE;
}

BOOL GetNumaNodeProcessorMaskEx(USHORT node, PGROUP_AFFINITY mask)
{
    if (node != 0)
        return ntw_fail(ERROR_INVALID_PARAMETER);
    *mask = (GROUP_AFFINITY){ .Mask = mask_of(sysconf(_SC_NPROCESSORS_ONLN)) };
    return TRUE;
}

BOOL GetNumaProcessorNode(UCHAR processor, PUCHAR node)
{
    if (processor >= sysconf(_SC_NPROCESSORS_CONF)) {
        *node = 0xFF;
        return ntw_fail(ERROR_INVALID_PARAMETER);
    }
    *node = 0;
    return TRUE;
}

BOOL IsProcessorFeaturePresent(DWORD feature)
{
#ifdef __x86_64__
    switch (feature) {
    case PF_COMPARE_EXCHANGE_DOUBLE:
    case PF_MMX_INSTRUCTIONS_AVAILABLE:
    case PF_XMMI_INSTRUCTIONS_AVAILABLE:
    case PF_RDTSC_INSTRUCTION_AVAILABLE:
    case PF_PAE_ENABLED:
    case PF_XMMI64_INSTRUCTIONS_AVAILABLE:
    case PF_NX_ENABLED:
        return TRUE; /* (Each processor of 64 bits has these.) */
    case PF_SSE3_INSTRUCTIONS_AVAILABLE:
        return __builtin_cpu_supports("sse3") != 0;
    case PF_SSSE3_INSTRUCTIONS_AVAILABLE:
        return __builtin_cpu_supports("ssse3") != 0;
    case PF_SSE4_1_INSTRUCTIONS_AVAILABLE:
        return __builtin_cpu_supports("sse4.1") != 0;
    case PF_SSE4_2_INSTRUCTIONS_AVAILABLE:
        return __builtin_cpu_supports("sse4.2") != 0;
    case PF_AVX_INSTRUCTIONS_AVAILABLE:
        return __builtin_cpu_supports("avx") != 0;
    case PF_AVX2_INSTRUCTIONS_AVAILABLE:
        return __builtin_cpu_supports("avx2") != 0;
    case PF_AVX512F_INSTRUCTIONS_AVAILABLE:
        return __builtin_cpu_supports("avx512f") != 0;
    }
#endif
    (void)feature;
    return FALSE;
}

DWORD SetThreadIdealProcessor(HANDLE thread, DWORD processor)
{
    struct seat *caller, *seat = begin_with_thread(thread, &caller);
    if (seat == NULL)
        return UINT32_MAX;
    const DWORD before = seat->life.ideal == 0 ? MAXIMUM_PROCESSORS : seat->life.ideal - 1u;
    const bool is_there = processor < MAXIMUM_PROCESSORS && (processors_of_all() >> processor & 1) == 1;
    if (is_there)
        seat->life.ideal = (uint8_t)(processor + 1);
    return end_look(caller, is_there || processor == MAXIMUM_PROCESSORS ? 0 : ERROR_INVALID_PARAMETER) ? before : UINT32_MAX;
}

void GetCurrentThreadStackLimits(PULONG_PTR low, PULONG_PTR high)
{
    pthread_attr_t attributes;
    void *begin = NULL;
    size_t size = 0;
    if (pthread_getattr_np(pthread_self(), &attributes) == 0) {
        pthread_attr_getstack(&attributes, &begin, &size);
        pthread_attr_destroy(&attributes);
    }
    *low = (ULONG_PTR)begin;
    *high = (ULONG_PTR)begin + size;
}
