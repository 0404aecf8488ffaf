"""The exports of nt_c as its source has them, and their declarations in C."""
import collections
import re

HEAD = re.compile(r'#\[unsafe\(no_mangle\)\]\npub extern "C" fn (\w+)\(([^)]*)\)(?: -> (\w+))?')

# The numbers that cross, in C. A struct of nt_c, as NtReply, is struct nt_reply there.
NUMBERS = {"u32": "uint32_t", "i32": "int32_t", "u64": "uint64_t", "i64": "int64_t", "usize": "size_t", "bool": "bool"}
SLICE = re.compile(r"&(mut )?\[(\w+)\]")

# An export: its module, its name, the types of its parameters, each with the fields in which it crosses, and the type of its answer, or "".
Export = collections.namedtuple("Export", "module name parameters answer")


def kind_of(field):
    return field.partition("_")[0]


def kinds_of(it):
    """The kinds of the fields in which a parameter of this type crosses: of a slice its pointer and its length, of the allocator none."""
    if it == "Global":
        return []
    return ["at", "usize"] if SLICE.fullmatch(it) else [it if it in NUMBERS else "at"]


def with_fields(types):
    """Each type with the fields in which it crosses."""
    used = collections.Counter()

    def next_of(kind):
        used[kind] += 1
        return f"{kind}_{used[kind] - 1}"

    return [(it, [next_of(kind) for kind in kinds_of(it)]) for it in types]


def exports_of(crate):
    for path in (it for it in crate.files() if it.endswith(".rt")):
        for name, parameters, answer in HEAD.findall(crate.text(path)):
            types = [it.partition(":")[2].strip() for it in parameters.split(",") if it.strip()]
            yield Export(path.removeprefix("src/").removesuffix(".rt"), name, with_fields(types), answer)


def in_c(kind):
    """The types in C of a parameter."""
    part = SLICE.fullmatch(kind)
    if kind == "Global" or kind in NUMBERS:
        return [f"{NUMBERS[kind]} "] if kind in NUMBERS else []
    if part:
        return [f"{'' if part[1] else 'const '}{NUMBERS[part[2]]} *", "size_t "]
    pointed = kind.removeprefix("&mut ")
    return [f"{NUMBERS.get(pointed) or 'struct ' + re.sub('(?<!^)(?=[A-Z])', '_', pointed).lower()} *"]


def declared(exported):
    """What c/nt.h has to declare: the type of the answer, and those of the parameters."""
    return NUMBERS.get(exported.answer, "void"), [it.rstrip() for kind, _ in exported.parameters for it in in_c(kind)]
