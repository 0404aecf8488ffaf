/* SPDX-License-Identifier: MIT OR Apache-2.0 */
/* ---- Places in the program, and the functions that they are in: by the symbol table of the file that they were loaded from, and by what the loader
 * knows. That is read as a report is written, without the lock. The file may be another one by then, or broken: of what it says nothing is taken for
 * granted, and it is read and not mapped, since whoever cuts a mapped file ends its readers. */
#include "internal.h"

/* A file that is open, of which nothing is known. */
struct image {
    int file;
    uint64_t size;
};

/* Whether this is a note that is in memory, and there is room for it beside others with this sum of bytes. */
static bool takes_note(const struct loaded *it, size_t others, const ElfW(Phdr) *note)
{
    for (size_t i = 0; note->p_type == PT_NOTE && i < it->count; i++) {
        const ElfW(Phdr) *part = &it->headers[i];
        if (part->p_type == PT_LOAD && note->p_vaddr >= part->p_vaddr && note->p_filesz <= part->p_filesz
            && note->p_vaddr - part->p_vaddr <= part->p_filesz - note->p_filesz)
            return note->p_filesz <= NOTES_AT_MOST - others;
    }
    return false;
}

static void copy_loaded(struct loaded *it, const struct dl_phdr_info *info)
{
    it->base = info->dlpi_addr;
    it->count = info->dlpi_phnum <= HEADERS_AT_MOST ? info->dlpi_phnum : 0;
    it->notes = 0;
    snprintf(it->name, sizeof it->name, "%s", info->dlpi_name);
    memcpy(it->headers, info->dlpi_phdr, it->count * sizeof *it->headers);
    for (size_t i = 0; i < it->count; i++)
        if (takes_note(it, it->notes, &it->headers[i])) {
            memcpy(it->note + it->notes, (const char *)(it->base + it->headers[i].p_vaddr), it->headers[i].p_filesz);
            it->notes += it->headers[i].p_filesz;
        }
}

/* Whether this place is in what was loaded so. */
NTW_INTERNAL bool ntw_is_in(const struct dl_phdr_info *info, uintptr_t address)
{
    for (int i = 0; i < info->dlpi_phnum; i++)
        if (info->dlpi_phdr[i].p_type == PT_LOAD && address - info->dlpi_addr - info->dlpi_phdr[i].p_vaddr < info->dlpi_phdr[i].p_memsz)
            return true;
    return false;
}

NTW_INTERNAL int find_loaded(struct dl_phdr_info *info, size_t size, void *at)
{
    struct loaded *it = at;
    (void)size;
    if (!ntw_is_in(info, it->address))
        return 0;
    copy_loaded(it, info);
    return 1;
}

NTW_INTERNAL int find_file(struct dl_phdr_info *info, size_t size, void *at)
{
    struct place *place = at;
    (void)size;
    if (!ntw_is_in(info, place->address))
        return 0;
    place->is_loaded = true;
    place->base = info->dlpi_addr;
    snprintf(place->file, sizeof place->file, "%s", info->dlpi_name[0] != 0 ? info->dlpi_name : program_invocation_name);
    return 1;
}

/* ---- Reading the file. */

/* Reads this number of bytes at that offset. False where the file has fewer there. */
static bool read_image(const struct image *image, void *to, size_t count, uint64_t offset)
{
    if (offset > image->size || count > image->size - offset)
        return false;
    for (size_t done = 0; done < count;) {
        const ssize_t length = pread(image->file, (char *)to + done, count - done, (off_t)(offset + done));
        if (length == 0 || (length < 0 && errno != EINTR))
            return false;
        done += length > 0 ? (size_t)length : 0;
    }
    return true;
}

static bool is_elf(const ElfW(Ehdr) *head)
{
    static const unsigned char class = sizeof(void *) == 8 ? ELFCLASS64 : ELFCLASS32;
    return memcmp(head->e_ident, ELFMAG, SELFMAG) == 0 && head->e_ident[EI_CLASS] == class;
}

/* Whether the notes stand in the file as they do in memory. (A file of the same layout that was built again has another build id.) */
static bool has_same_notes(const struct image *image, const struct loaded *loaded)
{
    char bytes[NOTES_AT_MOST];
    size_t seen = 0;
    for (size_t i = 0; i < loaded->count; i++) {
        const ElfW(Phdr) *note = &loaded->headers[i];
        if (!takes_note(loaded, seen, note))
            continue;
        if (!read_image(image, bytes, note->p_filesz, note->p_offset) || memcmp(bytes, loaded->note + seen, note->p_filesz) != 0)
            return false;
        seen += note->p_filesz;
    }
    return true;
}

/* Whether this was loaded from this file, whose head is as is read here. */
static bool is_of_file(const struct image *image, const struct loaded *loaded, ElfW(Ehdr) *head)
{
    ElfW(Phdr) header;
    if (loaded->count == 0 || !read_image(image, head, sizeof *head, 0) || !is_elf(head) || head->e_phentsize != sizeof header
        || head->e_phnum != loaded->count)
        return false;
    for (size_t i = 0; i < loaded->count; i++)
        if (!read_image(image, &header, sizeof header, head->e_phoff + i * sizeof header)
            || memcmp(&header, &loaded->headers[i], sizeof header) != 0)
            return false;
    return has_same_notes(image, loaded);
}

/* ---- The table of symbols. */

/* The first of the places, which are sorted, that is not before this address. */
NTW_INTERNAL size_t first_place_from(const struct places *places, uintptr_t address)
{
    size_t from = 0, to = places->count;
    while (from < to) {
        const size_t middle = from + (to - from) / 2;
        if (places->of[middle].address < address)
            from = middle + 1;
        else
            to = middle;
    }
    return from;
}

/* Gives a function to those places that are in it and have no name yet, where none is known that begins later. */
static void give_symbol(struct places *places, uintptr_t base, const ElfW(Sym) *symbol)
{
    const unsigned type = symbol->st_info & 0xF;
    if ((type != STT_FUNC && type != STT_GNU_IFUNC) || symbol->st_shndx == SHN_UNDEF || symbol->st_value == 0)
        return;
    for (size_t i = first_place_from(places, base + symbol->st_value); i < places->count; i++) {
        struct place *place = &places->of[i];
        if (place->address - base - symbol->st_value >= symbol->st_size || place->address - base < symbol->st_value)
            return;
        if (place->is_loaded && place->base == base && place->function[0] == 0 && place->begin < symbol->st_value) {
            place->begin = symbol->st_value;
            place->symbol = symbol->st_name;
        }
    }
}

/* Reads the name that begins at this offset of the table, and ends in it. Else it is empty. */
static void read_symbol(const struct image *image, const ElfW(Shdr) *names, uint64_t offset, char name[LONGEST_SYMBOL])
{
    const uint64_t left = offset < names->sh_size ? names->sh_size - offset : 0;
    const size_t count = left < LONGEST_SYMBOL ? (size_t)left : LONGEST_SYMBOL;
    if (names->sh_offset > UINT64_MAX - offset || !read_image(image, name, count, names->sh_offset + offset) || memchr(name, 0, count) == NULL)
        name[0] = 0;
}

static void read_symbols(const struct image *image, uintptr_t base, const ElfW(Shdr) *table, const ElfW(Shdr) *names, struct places *places)
{
    ElfW(Sym) symbols[SYMBOLS_AT_ONCE];
    const uint64_t count = table->sh_size / sizeof *symbols;
    for (uint64_t i = 0; i < count; i += SYMBOLS_AT_ONCE) {
        const size_t some = count - i < SYMBOLS_AT_ONCE ? (size_t)(count - i) : SYMBOLS_AT_ONCE;
        if (!read_image(image, symbols, some * sizeof *symbols, table->sh_offset + i * sizeof *symbols))
            break;
        for (size_t k = 0; k < some; k++)
            give_symbol(places, base, &symbols[k]);
    }
    for (size_t i = 0; i < places->count; i++)
        if (places->of[i].is_loaded && places->of[i].base == base && places->of[i].begin != 0 && places->of[i].function[0] == 0)
            read_symbol(image, names, places->of[i].symbol, places->of[i].function);
}

/* Looks for the table in a file whose head is this. */
static void read_sections(const struct image *image, uintptr_t base, const ElfW(Ehdr) *head, struct places *places)
{
    ElfW(Shdr) table, names;
    if (head->e_shentsize != sizeof table)
        return;
    for (uint32_t i = 0; i < head->e_shnum; i++)
        if (!read_image(image, &table, sizeof table, head->e_shoff + i * sizeof table))
            return;
        else if (table.sh_type == SHT_SYMTAB && table.sh_entsize == sizeof(ElfW(Sym)) && table.sh_link < head->e_shnum
                 && read_image(image, &names, sizeof names, head->e_shoff + table.sh_link * sizeof names) && names.sh_type == SHT_STRTAB)
            read_symbols(image, base, &table, &names, places);
}

/* Gives the places in this their functions, by the file with this path. Answers whether it was loaded from that. */
NTW_INTERNAL bool read_functions(const struct loaded *loaded, const char *path, struct places *places)
{
    struct stat it;
    ElfW(Ehdr) head;
    struct image image = { .file = open(path, O_RDONLY | O_CLOEXEC | O_NONBLOCK | O_NOCTTY) };
    if (image.file < 0)
        return false;
    image.size = fstat(image.file, &it) == 0 && S_ISREG(it.st_mode) ? (uint64_t)it.st_size : 0;
    const bool is_its = is_of_file(&image, loaded, &head);
    if (is_its)
        read_sections(&image, loaded->base, &head, places);
    close(image.file);
    return is_its;
}

/* ---- What the loader has in memory: the functions that other files may call. (It is read where that lists what is loaded, and is not asked: whoever
 * loads a library has the loader's lock while the constructors of that run, and one of them may wait for ever.) */

/* The table of symbols for others of what was loaded. */
struct exported {
    const ElfW(Sym) *symbols;
    const char *names;
    const uint32_t *hashes; /* of one of two kinds */
    bool is_gnu;
};

/* What stands at this address of what is loaded there. (The loader has added the base to it, or, in the kernel's own, not.) */
NTW_INTERNAL const void *address_in(ElfW(Addr) base, ElfW(Addr) address)
{
    return (const void *)(address < base ? base + address : address);
}

static void read_dynamic(struct exported *it, ElfW(Addr) base, const ElfW(Dyn) *entry)
{
    for (; entry->d_tag != DT_NULL; entry++)
        if (entry->d_tag == DT_SYMTAB) {
            it->symbols = address_in(base, entry->d_un.d_ptr);
        } else if (entry->d_tag == DT_STRTAB) {
            it->names = address_in(base, entry->d_un.d_ptr);
        } else if (entry->d_tag == DT_GNU_HASH || (entry->d_tag == DT_HASH && it->hashes == NULL)) {
            it->hashes = address_in(base, entry->d_un.d_ptr);
            it->is_gnu = entry->d_tag == DT_GNU_HASH;
        }
}

/* How many symbols there are. (A table of the newer kind has chains, of which the last one's last symbol is the last of all.) */
static uint32_t count_of(const struct exported *it)
{
    const uint32_t *hashes = it->hashes;
    if (!it->is_gnu)
        return hashes[1];
    const uint32_t *buckets = hashes + 4 + hashes[2] * (sizeof(ElfW(Addr)) / sizeof *hashes), *chains = buckets + hashes[0];
    uint32_t last = 0;
    for (uint32_t i = 0; i < hashes[0]; i++)
        last = buckets[i] > last ? buckets[i] : last;
    while (last >= hashes[1] && (chains[last - hashes[1]] & 1) == 0)
        last++;
    return last >= hashes[1] ? last + 1 : hashes[1];
}

/* What is asked: of what was loaded, for these places. */
struct asked_of_loader {
    const struct loaded *loaded;
    struct places *places;
};

static int give_exported(struct dl_phdr_info *info, size_t size, void *at)
{
    const struct asked_of_loader *asked = at;
    struct places *places = asked->places;
    struct exported it = { .symbols = NULL };
    (void)size;
    if (info->dlpi_addr != asked->loaded->base || !ntw_is_in(info, asked->loaded->address))
        return 0;
    for (size_t i = 0; i < info->dlpi_phnum; i++)
        if (info->dlpi_phdr[i].p_type == PT_DYNAMIC)
            read_dynamic(&it, info->dlpi_addr, (const void *)(info->dlpi_addr + info->dlpi_phdr[i].p_vaddr));
    if (it.symbols == NULL || it.names == NULL || it.hashes == NULL)
        return 1;
    for (uint32_t i = 0, count = count_of(&it); i < count; i++)
        give_symbol(places, info->dlpi_addr, &it.symbols[i]);
    for (size_t i = 0; i < places->count; i++) {
        struct place *place = &places->of[i];
        if (place->is_loaded && place->base == info->dlpi_addr && place->function[0] == 0 && place->begin != 0)
            snprintf(place->function, sizeof place->function, "%s", it.names + place->symbol);
    }
    return 1;
}

/* Gives the places in this, which have none, the functions that the loader knows. */
NTW_INTERNAL void ask_loader(const struct loaded *loaded, struct places *places)
{
    struct asked_of_loader asked = { loaded, places };
    dl_iterate_phdr(give_exported, &asked);
}
