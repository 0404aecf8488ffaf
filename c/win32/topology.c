/* SPDX-License-Identifier: MIT OR Apache-2.0 */
/* ---- Which processors are of one core, one package, the node and the group. */
#include "internal.h"

/* A number that the system has of a processor, or -1. */
static int told_of_processor(int processor, const char *what)
{
    char path[96];
    int number = -1;
    snprintf(path, sizeof path, "/sys/devices/system/cpu/cpu%d/topology/%s", processor, what);
    FILE *file = fopen(path, "re");
    if (file != NULL) {
        if (fscanf(file, "%d", &number) != 1)
            number = -1;
        fclose(file);
    }
    return number;
}

/* Notes the processors of each core, or of each package, in `found`, in the order of their first ones. Answers how many there are. */
static DWORD share_processors(bool by_core, DWORD_PTR found[MAXIMUM_PROCESSORS])
{
    int packages[MAXIMUM_PROCESSORS], cores[MAXIMUM_PROCESSORS];
    DWORD count = 0;
    DWORD_PTR rest = mask_of(sysconf(_SC_NPROCESSORS_ONLN));
    for (int i = 0; i < MAXIMUM_PROCESSORS; i++) {
        packages[i] = (rest >> i & 1) != 0 ? told_of_processor(i, "physical_package_id") : -1;
        cores[i] = (rest >> i & 1) != 0 ? told_of_processor(i, "core_id") : -1;
    }
    for (int i = 0; i < MAXIMUM_PROCESSORS; i++) {
        if ((rest >> i & 1) == 0)
            continue;
        found[count] = (DWORD_PTR)1 << i;
        for (int j = i + 1; j < MAXIMUM_PROCESSORS; j++)
            if ((rest >> j & 1) != 0 && packages[i] == packages[j] && (!by_core || (cores[i] == cores[j] && cores[i] >= 0)))
                found[count] |= (DWORD_PTR)1 << j;
        rest &= ~found[count++];
    }
    return count;
}

BOOL GetLogicalProcessorInformation(PSYSTEM_LOGICAL_PROCESSOR_INFORMATION buffer, PDWORD length)
{
    DWORD_PTR cores[MAXIMUM_PROCESSORS], packages[MAXIMUM_PROCESSORS];
    const DWORD core_count = share_processors(true, cores), package_count = share_processors(false, packages);
    const DWORD size = (DWORD)((core_count + package_count + 1) * sizeof *buffer), room = *length;
    *length = size;
    if (room < size)
        return ntw_fail(ERROR_INSUFFICIENT_BUFFER);
    memset(buffer, 0, size);
    for (DWORD i = 0; i < core_count; i++, buffer++) {
        buffer->ProcessorMask = cores[i];
        buffer->Relationship = RelationProcessorCore;
        buffer->ProcessorCore.Flags = (cores[i] & (cores[i] - 1)) != 0;
    }
    for (DWORD i = 0; i < package_count; i++, buffer++) {
        buffer->ProcessorMask = packages[i];
        buffer->Relationship = RelationProcessorPackage;
    }
    buffer->ProcessorMask = mask_of(sysconf(_SC_NPROCESSORS_ONLN));
    buffer->Relationship = RelationNumaNode;
    return TRUE;
}

enum {
    SIZE_OF_ENTRY = offsetof(SYSTEM_LOGICAL_PROCESSOR_INFORMATION_EX, Processor) + sizeof(PROCESSOR_RELATIONSHIP),
    SIZE_OF_GROUP = offsetof(SYSTEM_LOGICAL_PROCESSOR_INFORMATION_EX, Group) + sizeof(GROUP_RELATIONSHIP)
};
_Static_assert(sizeof(NUMA_NODE_RELATIONSHIP) == sizeof(PROCESSOR_RELATIONSHIP), "an entry of a node takes what one of a core does");

/* Begins an entry of this number of bytes, which are 0. Answers where the next begins. */
static BYTE *begin_entry(BYTE *at, LOGICAL_PROCESSOR_RELATIONSHIP relationship, DWORD size)
{
    PSYSTEM_LOGICAL_PROCESSOR_INFORMATION_EX entry = (PSYSTEM_LOGICAL_PROCESSOR_INFORMATION_EX)(void *)at;
    entry->Relationship = relationship;
    entry->Size = size;
    return at + size;
}

/* Writes an entry for each core or each package. */
static BYTE *put_processors(BYTE *at, LOGICAL_PROCESSOR_RELATIONSHIP relationship, const DWORD_PTR *masks, DWORD count)
{
    for (DWORD i = 0; i < count; i++) {
        PROCESSOR_RELATIONSHIP *processor = &((PSYSTEM_LOGICAL_PROCESSOR_INFORMATION_EX)(void *)at)->Processor;
        at = begin_entry(at, relationship, SIZE_OF_ENTRY);
        processor->Flags = relationship == RelationProcessorCore && (masks[i] & (masks[i] - 1)) != 0;
        processor->GroupCount = 1;
        processor->GroupMask[0].Mask = masks[i];
    }
    return at;
}

static BYTE *put_node(BYTE *at, DWORD_PTR all)
{
    NUMA_NODE_RELATIONSHIP *node = &((PSYSTEM_LOGICAL_PROCESSOR_INFORMATION_EX)(void *)at)->NumaNode;
    node->GroupCount = 1;
    node->GroupMask.Mask = all;
    return begin_entry(at, RelationNumaNode, SIZE_OF_ENTRY);
}

static void put_group(BYTE *at, DWORD_PTR all)
{
    GROUP_RELATIONSHIP *group = &((PSYSTEM_LOGICAL_PROCESSOR_INFORMATION_EX)(void *)at)->Group;
    const long most = sysconf(_SC_NPROCESSORS_CONF);
    group->MaximumGroupCount = group->ActiveGroupCount = 1;
    group->GroupInfo[0].MaximumProcessorCount = (BYTE)(most < MAXIMUM_PROCESSORS ? most : MAXIMUM_PROCESSORS);
    group->GroupInfo[0].ActiveProcessorCount = (BYTE)__builtin_popcountl(all);
    group->GroupInfo[0].ActiveProcessorMask = all;
    begin_entry(at, RelationGroup, SIZE_OF_GROUP);
}

BOOL GetLogicalProcessorInformationEx(LOGICAL_PROCESSOR_RELATIONSHIP relationship, PSYSTEM_LOGICAL_PROCESSOR_INFORMATION_EX buffer, PDWORD length)
{
    DWORD_PTR cores[MAXIMUM_PROCESSORS], packages[MAXIMUM_PROCESSORS];
    const DWORD_PTR all = mask_of(sysconf(_SC_NPROCESSORS_ONLN));
    const bool every = relationship == RelationAll, node = every || relationship == RelationNumaNode, group = every || relationship == RelationGroup;
    if (!every && relationship > RelationGroup)
        return ntw_fail(ERROR_INVALID_PARAMETER);
    const DWORD core_count = every || relationship == RelationProcessorCore ? share_processors(true, cores) : 0;
    const DWORD package_count = every || relationship == RelationProcessorPackage ? share_processors(false, packages) : 0;
    const DWORD size = (core_count + package_count + node) * SIZE_OF_ENTRY + group * SIZE_OF_GROUP, room = *length;
    *length = size;
    if (room < size)
        return ntw_fail(ERROR_INSUFFICIENT_BUFFER);
    if (size > 0)
        memset(buffer, 0, size);
    BYTE *at = put_processors((BYTE *)buffer, RelationProcessorCore, cores, core_count);
    at = put_processors(at, RelationProcessorPackage, packages, package_count);
    if (node)
        at = put_node(at, all);
    if (group)
        put_group(at, all);
    return TRUE;
}
