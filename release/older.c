/* SPDX-License-Identifier: MIT OR Apache-2.0 */
/* What is linked with in the place of what a later glibc has in its libraries and 2.31 has not. */
#include <cpuid.h>
#include <sys/stat.h>

/* By which number the system's own `struct stat` is asked for. */
enum { OF_SYSTEM = 1 };

/* The features of a processor, by the parts in which glibc keeps them: eax, ebx, ecx, edx, and of those what the system lets a program use. */
struct cpuid_feature {
    unsigned there[4], usable[4];
};

int __xstat(int version, const char *path, struct stat *to);
int __fxstat(int version, int file, struct stat *to);
const struct cpuid_feature *__x86_get_cpuid_feature_leaf(unsigned part);

__attribute__((visibility("hidden"))) int stat(const char *path, struct stat *to)
{
    return __xstat(OF_SYSTEM, path, to);
}

__attribute__((visibility("hidden"))) int fstat(int file, struct stat *to)
{
    return __fxstat(OF_SYSTEM, file, to);
}

/* The kit's programs look here for x86-64-v2, whose features each system lets a program use. No other features are reported as usable. */
__attribute__((visibility("hidden"))) const struct cpuid_feature *__x86_get_cpuid_feature_leaf(unsigned part)
{
    static const unsigned leaves[] = { 1, 7, 0x80000001 }, of_v2[] = { 0x982201, 0, 1 };
    static struct cpuid_feature found[3], none;
    if (part >= 3)
        return &none;
    unsigned *const it = found[part].there;
    __get_cpuid_count(leaves[part], 0, &it[0], &it[1], &it[2], &it[3]);
    found[part].usable[2] = it[2] & of_v2[part];
    return &found[part];
}
