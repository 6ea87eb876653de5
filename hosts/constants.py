#!/usr/bin/env python3
"""constants.py [ROOT]: holds the numbers of the proved source, the C header and the Rust interface to docs/SCOPE.md and to each other.

The same names with the same values must stand in all three, none missing and none left over but for what one side has for itself: X in the source, or a
variant of an enum (NoWords for NO_WORDS), ARBITER_X in C, X in Rust; in the source and in Rust with the same type. So must the calls, each with the names and types of what is lent, in their order, and the type of its
answer, and in C marked as one whose answer must be used; and the structs that go through them, each with the names and types of its fields, in their order. The refusals' texts
must be the same in C and Rust. The host in Python has all calls and structs with these types, and what numbers it has are these.
ROOT is the repository, by default the one that this file is in.
"""
import ctypes
import importlib.util
import re
import sys
from pathlib import Path

# The numbers of docs/SCOPE.md: its limits, and its lists in their order.
LIMITS = {
    "MAX_WORDS": 4096,
    "MAX_DEVICES": 16,
    "MAX_CAPACITY": 8,
    "MAX_TASKS": 8,
    "MAX_ACTIONS": 255,
    "MAX_GRID": 65536,
    "MAX_SETTING": 255,
    "MAX_ORDER": 255,
    "FIELDS": 1 << 28,
    "DEVICES": 1 << 16,
    "EXTRA_UNITS": 1 << 8,
    "NO_STEP": 255,
}
WORD_KINDS = "DEVICE TASK CLAIM RELEASE END FORBIDDEN_BOX UNSAFE_BOX SIDE DEAD_STATE UNREACHED_STATE".split()
MAP_BYTES = "OPEN FORBIDDEN UNSAFE DEAD".split()
REFUSALS = """
    NO_WORDS TOO_MANY_WORDS WORD_AFTER_END UNKNOWN_KIND OUT_OF_ORDER FIELD_NOT_ALLOWED TOO_MANY CLAIM_OF_HELD RELEASE_OF_NOT_HELD STILL_HELD NO_END
    GRID_TOO_LARGE MAP_TOO_SHORT PLAN_TOO_SHORT BYTES_NOT_WORDS BAD_RECORD NO_SUCH_TASK BAD_MAP_BYTE NOT_AT_END NO_ROUTE ROUTE_TOO_SHORT
    BAD_TASK_COUNT OUTSIDE_LAYOUT UNCLAIMED_DEVICE CLEAN_TOO_SHORT BAD_SETTING BAD_ORDER TOO_MANY_UNITS
    """.split()

# The kinds of an answer, and the version: major times 10,000, minor times 100, patch.
ANSWER_KINDS = """
    REFUSED ACCEPTED PLANNED ROUTED GRANTED FINISHED BUSY HELD RESTARTED IN_FORBIDDEN_BOX IN_UNSAFE_BOX IN_NO_BOX CLEANED SHARE_SPENT TRIED
    """.split()
VERSION = {"VERSION": 60000}

# What hosts use and the proved source doesn't know: in the header, and in the package's plain.rs.
OF_HOSTS = {"NOT_ANALYSED": 0xFF}

# What the proved source has for itself: no host lends it, and no answer has it.
# The last three are the refusals of the merge, which no host can call yet.
OF_SOURCE = {
    "THOUSAND": 1000,
    "CLAIM_FIELDS": LIMITS["DEVICES"] * LIMITS["EXTRA_UNITS"],
    "TOO_MANY_SHARED": 29,
    "UNEQUAL_CAPACITIES": 30,
    "MERGE_TOO_SHORT": 31,
}

# What the proved source calls otherwise than hosts do: a name that is a crate's there, and a short one.
OF_HOSTS_NAMED = {"rec": "record", "steps": "route"}

# What C calls otherwise than the others: there a struct can't have the name of a call. And the header's own struct, which goes through no call.
OF_C_NAMED = {"TrialResult": "Trial"}
OF_HEADER = {"Box"}

# Macros of the header that stand for no number.
NO_NUMBERS = {"ARBITER_MUST_USE"}


def numbered(names, first):
    return {name: number for number, name in enumerate(names, first)}


WANTED = {
    **LIMITS,
    **numbered(WORD_KINDS, 1),
    **numbered(MAP_BYTES, 0),
    **numbered(REFUSALS, 1),
    **numbered(ANSWER_KINDS, 0),
    **VERSION,
}

complaints = []


def once(pairs, where):
    """The pairs as a dict; a name that comes twice is a complaint."""
    found = {}
    for name, value in pairs:
        if name in found:
            complaints.append(f"{where}: {name} stands there twice")
        found[name] = value
    return found


def number(text, where):
    try:
        return int(text.replace("_", ""), 0)
    except ValueError:
        complaints.append(f"{where}: {text} isn't a plain number")


def of_source(paths, where):
    """The public constants outside impl blocks, in Rattle or Rust: name to value, and name to type."""
    text = "\n".join(path.read_text() for path in paths)
    rows = re.findall(r"^pub const (\w+): (\w+) = ([^;]+);", text, re.M)
    values = once([(name, number(value, where)) for name, _, value in rows], where)
    return values, {name: kind for name, kind, _ in rows}


def of_enums(paths, where):
    """The variants of the source's enums, by the names that hosts use: name to value, and name to the type of the enum's `number`. Each has a number of its own, and each
    enum a `number`."""
    values, types = [], {}
    for path in paths:
        text = path.read_text()
        for enum, body in re.findall(r"^pub enum (\w+) \{\n(.*?)^\}", text, re.M | re.S):
            methods = re.search(rf"^impl {enum} \{{\n(.*?)^\}}", text, re.M | re.S)
            of_number = methods and re.search(r"^ {4}(?:pub )?fn number\(self\) -> (\w+)$", methods[1], re.M)
            if not of_number:
                complaints.append(f"{where}: {path.name}: the enum {enum} has no number")
            for line in body.splitlines():
                variant = re.fullmatch(r"    (\w+) = (\w+),", line)
                if variant:
                    name = screaming(variant[1])
                    values.append((name, number(variant[2], where)))
                    types[name] = of_number and of_number[1]
                elif line.strip() and not line.strip().startswith("//"):
                    complaints.append(f"{where}: {path.name}: the enum {enum} has a variant without a number of its own: {line.strip()}")
    return once(values, where), types


def of_header(path):
    """The macros of the header that have a value, without their ARBITER_."""
    rows = re.findall(r"^[ \t]*#[ \t]*define[ \t]+(\w+)[ \t]+([^\s/]+)", path.read_text(), re.M)
    pairs = []
    for name, value in rows:
        if name in NO_NUMBERS:
            continue
        if name.startswith("ARBITER_"):
            pairs.append((name[len("ARBITER_"):], number(value, path.name)))
        else:
            complaints.append(f"{path.name}: {name} doesn't start with ARBITER_")
    return once(pairs, path.name)


def compare(found, wanted, where, what="value"):
    for name in sorted(wanted.keys() - found.keys()):
        complaints.append(f"{where}: no {what} for {name}")
    for name in sorted(found.keys() - wanted.keys()):
        complaints.append(f"{where}: {name} stands nowhere else")
    for name in sorted(wanted.keys() & found.keys()):
        if found[name] != wanted[name]:
            complaints.append(f"{where}: {name} has the {what} {found[name]!r}, not {wanted[name]!r}")


def lent_in_source(parameter):
    """A parameter of the proved source as C lends it, in Rust's words: a slice is its address and its number of elements."""
    name, kind = parameter.split(": ")
    name = OF_HOSTS_NAMED.get(name, name)
    slice_of = re.fullmatch(r"&(mut )?\[(\w+)\]", kind)
    if slice_of:
        return [f"{name}: *{slice_of[1] or 'const '}{slice_of[2]}", f"{name}_len: usize"]
    return [f"{name}: {kind.replace('&mut ', '*mut ')}"]


def lent_in_header(parameter):
    """A parameter of the header in Rust's words."""
    constant, kind, pointer, name = re.fullmatch(r"(const )?(\w+) (\*?)(\w+)", parameter).groups()
    access = ("*const " if constant else "*mut ") if pointer else ""
    return [f"{name}: {access}{rust_type(kind)}"]


def rust_type(kind):
    plain = {"uint8_t": "u8", "uint16_t": "u16", "uint32_t": "u32", "uint64_t": "u64", "size_t": "usize"}
    name = camel(kind.replace("arbiter_", ""))
    return plain.get(kind) or OF_C_NAMED.get(name, name)


def signature(parameters, lent, answer):
    """What a call is lent, comma by comma, and its answer."""
    parts = [part.strip() for part in parameters.split(",")]
    return [text for part in parts if part not in ("", "void") for text in lent(part)] + [answer]


def of_calls(paths, start, lent, where):
    """The calls that begin with this at the start of a line, in Rattle or Rust: name to signature."""
    text = "\n".join(path.read_text() for path in paths)
    rows = re.findall(rf"^\s*{start}(arbiter_\w+)\(([^)]*)\)\s*->\s*(\w+)", text, re.M)
    return once([(name, signature(parameters, lent, answer)) for name, parameters, answer in rows], where)


def of_header_calls(path):
    """The calls of the header whose answer must be used: name to signature."""
    rows = re.findall(r"^ARBITER_MUST_USE (\w+) (arbiter_\w+)\(([^)]*)\);", path.read_text(), re.M)
    return once([(name, signature(parameters, lent_in_header, rust_type(answer))) for answer, name, parameters in rows], path.name)


def of_structs(paths, where):
    """The structs that are laid out as C does, in Rattle or Rust: name to fields."""
    text = "\n".join(path.read_text() for path in paths)
    rows = re.findall(r"^#\[repr\(C\)\]\n(?:#\[.*\]\n)*pub struct (\w+) \{([^}]*)\}", text, re.M)
    fields = re.compile(r"^\s*pub (\w+: [^,]+),", re.M)
    return once([(name, fields.findall(body.replace("model::", ""))) for name, body in rows], where)


def of_header_structs(path):
    """The header's structs in Rust's words, but for its own: name to fields."""
    text = re.sub(r"/\*.*?\*/", "", path.read_text(), flags=re.S)
    rows = re.findall(r"^typedef struct (arbiter_\w+) \{([^}]*)\} (\w+);", text, re.M)
    pairs = [(rust_type(name), [field for line in body.split(";") for field in header_fields(line)]) for name, body, _ in rows]
    return once([(name, fields) for name, fields in pairs if name not in OF_HEADER], path.name)


def header_fields(line):
    """The field that a line of a struct declares in the header, in Rust's words."""
    return [f"{name}: [{rust_type(kind)}; {length}]" if length else f"{name}: {rust_type(kind)}"
            for kind, name, length in re.findall(r"(\w+) (\w+)(?:\[ARBITER_(\w+)\])?", line)]


def nameless(texts):
    """A signature without its names, and without what may be written: all that the types of Python tell."""
    return [text.split(": ")[-1].replace("*const ", "*mut ") for text in texts]


def of_ctypes(kind):
    # On these machines a number of 64 bits and a length have one type.
    plain = {ctypes.c_uint8: "u8", ctypes.c_uint16: "u16", ctypes.c_uint32: "u32", ctypes.c_size_t: "usize"}
    if issubclass(kind, ctypes._Pointer):
        return "*mut " + of_ctypes(kind._type_)
    if issubclass(kind, ctypes.Array):
        return f"[{of_ctypes(kind._type_)}; {kind._length_}]"
    return plain.get(kind) or kind.__name__


def of_python(path):
    """The numbers of the host in Python, its calls with their types, but for the text, which isn't the library's, and its structs with their fields."""
    sys.dont_write_bytecode = True
    spec = importlib.util.spec_from_file_location(path.stem, path)
    module = importlib.util.module_from_spec(spec)
    spec.loader.exec_module(module)
    numbers = {name: value for name, value in vars(module).items() if name.isupper() and isinstance(value, int)}
    calls = {name: [*lent, answer] for name, (lent, answer) in module.CALLS.items() if name != "arbiter_refusal_text"}
    kinds = [kind for kind in vars(module).values() if isinstance(kind, type) and issubclass(kind, ctypes.Structure)]
    structs = {kind.__name__: [f"{name}: {of_ctypes(of)}" for name, of in kind._fields_] for kind in kinds}
    return numbers, {name: [of_ctypes(kind) for kind in kinds] for name, kinds in calls.items()}, structs


def python_fields(fields):
    """A struct's fields as Python has them: lengths by their numbers, and numbers of 64 bits by their size alone."""
    return [field.replace("MAX_TASKS", str(LIMITS["MAX_TASKS"])).replace(": u64", ": usize") for field in fields]


def screaming(name):
    return re.sub(r"(?<!^)(?=[A-Z])", "_", name).upper()


def camel(name):
    return "".join(part.capitalize() for part in name.split("_"))


def main(root):
    source = [root / "crates/model/src/lib.rt", *sorted((root / "crates/arbiter/src").glob("*.rt")), root / "crates/route/src/lib.rt"]
    header = root / "include/arbiter.h"
    safe = root / "hosts/rust/src/lib.rs"

    values, types = of_source(source, "the source")
    numbered_enums = [root / "crates/set_words/src/kinds.rt", root / "crates/refusals/src/lib.rt", root / "crates/arbiter/src/answers.rt"]
    enum_values, enum_types = of_enums(numbered_enums, "the source")
    for name in values.keys() & enum_values.keys():
        complaints.append(f"the source: {name} is a constant and a variant")
    values, types = {**values, **enum_values}, {**types, **enum_types}
    compare(values, {**WANTED, **OF_SOURCE}, "the source")
    rust_values, rust_types = of_source([root / "hosts/rust/src/sys.rs"], "sys.rs")
    compare(rust_values, WANTED, "sys.rs")
    both = types.keys() & rust_types.keys()
    compare({name: rust_types[name] for name in both}, {name: types[name] for name in both}, "sys.rs", "type")
    compare(of_header(header), {**WANTED, **OF_HOSTS}, "arbiter.h")
    compare(of_source([root / "hosts/rust/src/plain.rs"], "plain.rs")[0], OF_HOSTS, "plain.rs")

    calls = of_calls(sorted((root / "crates/arbiter_c/src").glob("*.rt")), r'pub extern "C" fn ', lent_in_source, "the source")
    compare(of_header_calls(header), calls, "arbiter.h", "signature, its answer one that must be used,")
    compare(of_calls([root / "hosts/rust/src/sys.rs"], r"pub fn ", lambda part: [part], "sys.rs"), calls, "sys.rs", "signature")

    structs = of_structs([path for crate in ("arbiter", "records", "trial") for path in sorted((root / "crates" / crate / "src").glob("*.rt"))], "the source")
    compare(of_header_structs(header), structs, "arbiter.h", "fields")
    compare(of_structs([root / "hosts/rust/src/sys.rs"], "sys.rs"), structs, "sys.rs", "fields")

    python_numbers, python_calls, python_structs = of_python(root / "hosts/python/serve.py")
    known = {**WANTED, **OF_HOSTS}
    compare(python_numbers, {name: known[name] for name in python_numbers.keys() & known.keys()}, "serve.py")
    compare(python_calls, {name: nameless(texts) for name, texts in calls.items()}, "serve.py", "signature")
    compare(python_structs, {name: python_fields(fields) for name, fields in structs.items()}, "serve.py", "fields")

    variants = once(re.findall(r"^\s*(\w+) = sys::(\w+),", safe.read_text(), re.M), "lib.rs")
    compare(variants, {camel(name): name for name in REFUSALS}, "lib.rs", "number")
    all_texts = once(re.findall(r'case ARBITER_(\w+):\s*return "([^"]*)";', header.read_text()), "arbiter.h")
    kind_texts = {name: text for name, text in all_texts.items() if name in ANSWER_KINDS}
    compare(kind_texts, {name: name.lower().replace("_", " ") for name in ANSWER_KINDS}, "arbiter.h", "text")
    texts = {name: text for name, text in all_texts.items() if name not in kind_texts}
    rust_texts = once(re.findall(r'Refusal::(\w+) =>\s*\{?\s*"([^"]*)"', safe.read_text()), "lib.rs")
    compare(texts, {name: texts.get(name, "") for name in REFUSALS}, "arbiter.h", "text")
    compare(rust_texts, {camel(name): text for name, text in texts.items()}, "lib.rs", "text")

    for complaint in complaints:
        print(complaint)
    if complaints:
        sys.exit(1)
    print(f"constants: {len(WANTED)}, {len(calls)} calls and {len(structs)} structs agree in the source, arbiter.h and sys.rs, and {len(texts)} refusal texts")


if __name__ == "__main__":
    main(Path(sys.argv[1]) if len(sys.argv) > 1 else Path(__file__).resolve().parent.parent)
