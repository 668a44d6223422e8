#!/usr/bin/env python3
"""Compares include/palmheap.h with the functions that crates/palmheap_c exports.

    tools/check_header.py [HEADER]

Each exported function must be declared once, with the same result and the same parameters in order, by type and name.
A store is const if the function's contract says that it is the same after the call: by the clause `same`.
Each structure must have the same fields in order. Each kind of answer and each refusal must have the number that the
Rattle code gives it. The comment on a function must list the same refusals as that in the Rattle code. Functions that
the header itself defines (static inline) are left out, and none of them may be exported. PALMHEAP_VERSION must be the
version of the program, of the package for Python and of `palmheap_version`. HEADER is another file to compare. Prints
each difference; the status is 1 if there is one.
"""

import os
import re
import sys

TOP = os.path.dirname(os.path.dirname(os.path.realpath(__file__)))
SOURCES = f"{TOP}/crates/palmheap_c/src"
NUMBERS = {"u8": "uint8_t", "u16": "uint16_t", "u32": "uint32_t", "u64": "uint64_t", "usize": "size_t", "bool": "bool"}
# Structures whose name in C is not made of their name here.
STRUCTS = {"Kept": "palmheap_store", "Slot": "palmheap_store", "KeptLoan": "palmheap_loan"}
# Structures that C sees only as fields of another one.
PARTS = {"palmheap_lent_part"}
# The clause of a contract that says that a call leaves its store as it was.
SAME_STORE = "ensures same { store.new.store ≡ store.old.store }"
# Where the version is written, but for the header and the library.
VERSIONS = {
    "crates/program_io/src/command_line.rt": r'^ *\.version\("(.*)"\)$',
    "python/pyproject.toml": r'^version = "(.*)"$',
    "python/palmheap/__init__.py": r'^__version__ = "(.*)"$',
}
# A function that the header defines.
INLINE = re.compile(r"^static inline [^;{]*?\b(\w+)\([^;{]*\{.*?^\}", re.M | re.S)
# Pointers in structures, by the name of the field.
POINTERS = {"at": "void *", "bytes": "uint8_t *"}


def text_of(path):
    with open(path, encoding="utf-8") as it:
        return it.read()


def snake(name):
    return re.sub(r"(?<!^)(?=[A-Z])", "_", name).lower()


def c_name(kind):
    """Returns the name in C of a number or a structure."""
    return NUMBERS.get(kind) or STRUCTS.get(kind) or f"palmheap_{snake(kind)}"


def c_parameters(name, kind):
    """Returns the parameters in C that one parameter becomes."""
    found = re.fullmatch(r"&(mut )?\[(.+)\]", kind)
    if found:
        const = "" if found[1] else "const "
        item = "palmheap_bytes" if found[2] == "&[u8]" else c_name(found[2])
        return [f"{const}{item} *{name}", f"size_t {name}_len"]
    if kind == "&mut *mut u8":
        return [f"uint8_t **{name}"]
    found = re.fullmatch(r"&(mut )?(.+)", kind)
    if found:
        return [f"{'' if found[1] else 'const '}{c_name(found[2])} *{name}"]
    return [] if kind == "Global" else [f"{c_name(kind)} {name}"]


def exported(text):
    """Yields each exported function: its name, its parameters in C, and the type in C of its result."""
    head = r'#\[unsafe\(no_mangle\)\]\npub extern "C" fn (\w+)\((.*?)\)(?: -> (\w+))?\s*'
    pattern = head + r"(?:\{|((?:ensures|requires).*?)^\{)"
    for name, given, result, contract in re.findall(pattern, text, re.M | re.S):
        if SAME_STORE in contract:
            given = given.replace("store: &mut Kept", "store: &Kept")
        pairs = [it.split(":", 1) for it in re.split(r",\s*(?=\w+:)", given.strip().rstrip(",")) if it]
        yield name, [c for it in pairs for c in c_parameters(*map(str.strip, it))], c_name(result) if result else "void"


def structures(text):
    """Yields each structure that C sees: its name in C, and the types and names of its fields in C."""
    for name, body in re.findall(r"#\[repr\(C\)\]\n(?:#\[[^\n]*\]\n)*pub struct (\w+) \{\n(.*?)\n\}", text, re.S):
        fields = []
        for field, kind in re.findall(r"^    (?:pub )?(\w+): ([^\n]+),$", body, re.M):
            array = re.fullmatch(r"\[(\w+); (\d+)\]", kind)
            kind = POINTERS[field] if kind == "*mut u8" else c_name(array[1] if array else kind)
            fields.append(f"{kind} {field}[{array[2]}]" if array else f"{kind} {field}")
        yield c_name(name), [it.replace("* ", "*") for it in fields]


def without_comments(text):
    return re.sub(r"/\*.*?\*/", "", text, flags=re.S)


def declared(header):
    """Yields each function of the header as `exported` does."""
    body = re.sub(r"\b(struct|enum)\b[^{;]*\{.*?\}", "", header, flags=re.S)
    for result, name, given in re.findall(r"^([^\n;]*?)\b(\w+)\(([^;]*?)\);", body, re.M | re.S):
        given = [] if given == "void" else given.split(",")
        yield name, [" ".join(it.split()) for it in given], result.strip()


def declared_structures(header):
    for name, body in re.findall(r"typedef struct (\w+) \{(.*?)\}", header, re.S):
        yield name, [" ".join(it.split()) for it in body.split(";") if it.strip()]


def refused_in_crate(text):
    """Yields each exported function with the numbers of refusals that its comment lists."""
    pattern = r'((?:///[^\n]*\n)+)(?:#\[[^\n]*\]\n)*#\[unsafe\(no_mangle\)\]\npub extern "C" fn (\w+)'
    for comment, name in re.findall(pattern, text):
        listed = re.search(r"The refusals? ([\d, ]+)[.,]", comment)
        yield name, re.findall(r"\d+", listed[1]) if listed else []


def refused_in_header(header):
    """Yields each function of the header as `refused_in_crate` does."""
    for comment, name in re.findall(r"/\*((?:(?!\*/).)*)\*/\s*\w[^/;{]*?\b(\w+)\([^;]*;", header, re.S):
        listed = re.search(r"Refusals: ([\d,\s*]+)\.", comment)
        yield name, re.findall(r"\d+", listed[1]) if listed else []


def compare(what, here, there, wrong):
    """Notes where two lists of named things differ."""
    mine, theirs = {}, {}
    for of, named, place in ((here, mine, "the crate"), (there, theirs, "the header")):
        for name, *rest in of:
            if name in named:
                wrong.append(f"{what} {name} is twice in {place}")
            named[name] = rest
    for name in sorted({*mine, *theirs}):
        if mine.get(name) != theirs.get(name):
            wrong.append(f"{what} {name}: the crate has {mine.get(name)}, and the header {theirs.get(name)}")


def shouted(name):
    return snake(name).upper()


def kinds_of(text):
    """Yields the number of each kind of answer, by its name in C."""
    for name, kind in re.findall(r"const (\w+): Answer = Answer \{\s*kind: (\d+),", text):
        yield "OK" if name == "NO_FAULT" else name, int(kind)
    for name, number in re.findall(r"const (CALL_\w+): u32 = (\d+);", text):
        yield name, int(number)
    renamed = {"BadInfo(Which::App)": "BadAppInfo", "BadInfo(Which::Sort)": "BadSortInfo"}
    # A blank image can't have this size, and an image has a wrong field: two faults with one name.
    fields = {"HeapFault::BadSize": "BadSizeField", "HeapFault::BadSlotCount": "BadSlotField"}
    name = r"((?:Heap|Store|File|Script)Fault)::(\w+(?:\(Which::\w+\))?)(?:\([\w, ]+\))?"
    pattern = rf"{name} => (?:plain\(|numbered\(|\(|Answer \{{\s*kind: )(\d+)"
    for kind, name, number in re.findall(pattern, text):
        yield shouted(fields.get(f"{kind}::{name}") or renamed.get(name) or name), int(number)


def refusals_of(text):
    for name, number in re.findall(r"Refusal::(\w+)(?:\(_\))? => (\d+),", text):
        yield f"REFUSED_{shouted(name)}", int(number)


def versions(text, header):
    """Yields each place where another version is written than in the header."""
    version = re.search(r'^#define PALMHEAP_VERSION "(\d+)\.(\d+)\.(\d+)"$', header, re.M)
    if not version:
        return ["the header has no PALMHEAP_VERSION of three numbers"]
    plain, number = ".".join(version.groups()), sum(int(it) * 1000**at for at, it in enumerate(version.groups()[::-1]))
    places = {"PALMHEAP_VERSION_NUMBER": (header, r"^#define PALMHEAP_VERSION_NUMBER (\d+)$", str(number))}
    contract = r"fn palmheap_version\(\) -> u32\s+ensures \{ result ≡ (\d+) \}"
    places["palmheap_version"] = text, contract, str(number)
    for path, pattern in VERSIONS.items():
        places[path] = text_of(f"{TOP}/{path}"), pattern, plain
    found = {of: re.findall(pattern, it, re.M) for of, (it, pattern, _) in places.items()}
    return [
        f"the version of the header is {plain}, and {of} has {found[of]} in place of {wanted}"
        for of, (*_, wanted) in places.items()
        if found[of] != [wanted]
    ]


def main():
    text = "\n".join(text_of(f"{SOURCES}/{it}") for it in sorted(os.listdir(SOURCES)) if it.endswith(".rt"))
    text += text_of(f"{TOP}/crates/raw_region/src/lent_part.rt")
    whole = text_of(sys.argv[1] if len(sys.argv) > 1 else f"{TOP}/include/palmheap.h")
    inline = [it[1] for it in INLINE.finditer(whole)]
    whole = INLINE.sub("", whole)
    header = without_comments(whole)
    numbers = re.findall(r"\bPALMHEAP_(\w+) = (\d+)", header)
    wrong = []
    compare("the function", list(exported(text)), list(declared(header)), wrong)
    compare("the comment on", list(refused_in_crate(text)), list(refused_in_header(whole)), wrong)
    # C alone needs a structure for the items of a list of files. A store is two structures here, one in C.
    all_here = dict(structures(text))
    here = {
        name: [part for it in fields for part in all_here.get(it.split()[0], [it])]
        for name, fields in all_here.items()
        if name not in PARTS
    }
    there = [it for it in declared_structures(header) if it[0] != "palmheap_bytes"]
    compare("the structure", list(here.items()), there, wrong)
    refusals = refusals_of(text_of(f"{TOP}/crates/heap_model/src/refusal.rt"))
    named = [(name, int(number)) for name, number in numbers]
    compare("the kind", list(kinds_of(text)), [it for it in named if not it[0].startswith("REFUSED_")], wrong)
    compare("the refusal", list(refusals), [it for it in named if it[0].startswith("REFUSED_")], wrong)
    wrong += versions(text, whole)
    wrong += [f"the header defines {it}, and the crate exports it" for it, *_ in exported(text) if it in inline]
    print("\n".join(wrong) if wrong else f"{len(list(exported(text)))} functions are declared as they are exported")
    return 1 if wrong else 0


if __name__ == "__main__":
    sys.exit(main())
