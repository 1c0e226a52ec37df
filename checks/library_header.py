"""Compares bindings/c/ssh_audit.h with the sources that it declares: each exported function with its parameters in their order,
each structure with the names, the order and the types of its fields, and, by a compiled program, their sizes and offsets."""
import pathlib
import re
import subprocess

TOP = pathlib.Path(__file__).resolve().parent.parent
HEADER = TOP / "bindings" / "c" / "ssh_audit.h"
EXPORTERS = ("ssh_audit_c", "ssh_decisions_c")
SOURCES = [path for crate in ("ssh_memory", *EXPORTERS) for path in sorted((TOP / "crates" / crate / "src").glob("*.rt"))]
# What each structure is called in C. A word of the command line is a structure of one slice, which C has a name for.
NAMES = {
    "Text": "ssh_audit_bytes",
    "NamedBytes": "ssh_audit_file",
    "Answer": "ssh_audit_answer",
    "SignedBytes": "ssh_audit_signed",
    "LoginAsked": "ssh_audit_login_asked",
    "HostAsked": "ssh_audit_host_asked",
    "Decided": "ssh_audit_decided",
    "LoginRights": "ssh_audit_rights",
    "LoginDecided": "ssh_audit_login_decided",
    "LineReason": "ssh_audit_reason",
    "CarriedText": "ssh_audit_carried",
}
# The type in C of a field, with its size and its alignment.
FIELDS = {
    "&'a [u8]": ("ssh_audit_bytes", 16, 8),
    "u8": ("uint8_t", 1, 1),
    "u16": ("uint16_t", 2, 2),
    "u32": ("uint32_t", 4, 4),
    "u64": ("uint64_t", 8, 8),
    "usize": ("size_t", 8, 8),
    "bool": ("bool", 1, 1),
}
BYTES = [("const uint8_t *", "bytes"), ("size_t", "length")]


def structures_of_sources():
    """The fields of each structure that crosses to C: names with their types there."""
    found = {}
    for path in SOURCES:
        for name, body in re.findall(r"#\[repr\(C\)\]\n(?:#\[[^\n]*\]\n)*pub struct (\w+)(?:<'a>)? \{\n(.*?)\n\}", path.read_text(), re.DOTALL):
            found[name] = re.findall(r"^    pub (\w+): (.+),$", body, re.MULTILINE)
    return found


def functions_of_sources():
    """The parameters and the result of each exported function, as C has them."""
    found = {}
    for path in SOURCES:
        for name, given, result in re.findall(r'pub extern "C" fn (\w+)\((.*?)\) -> (\w+)', path.read_text(), re.DOTALL):
            parameters = [tuple(part.strip().split(": ")) for part in given.split(",") if part.strip()]
            found[name] = (NAMES[result], ", ".join(in_c(name, kind) for name, kind in parameters if kind != "Global"))
    return found


def in_c(name, kind):
    """A parameter in C."""
    slice_of = re.fullmatch(r"&(mut )?\[(\w+)(?:<'_>)?\]", kind)
    if slice_of:
        item = "uint8_t" if slice_of[2] == "u8" else NAMES[slice_of[2]]
        return f"{'' if slice_of[1] else 'const '}{item} *{name}, size_t {name}_length"
    whole = re.fullmatch(r"&(\w+)<'_>", kind)
    return f"const {NAMES[whole[1]]} *{name}"


def structures_of_header(text):
    found = {}
    for body, name in re.findall(r"typedef struct \{\n(.*?)\n\} (\w+);", text, re.DOTALL):
        found[name] = [(kind.strip(), field) for kind, field in re.findall(r"^  (.*?[ *])(\w+);$", body, re.MULTILINE)]
    return found


def functions_of_header(text):
    found = re.findall(r"^(\w+) (ssh_audit_\w+)\(([^)]*)\);", text, re.MULTILINE | re.DOTALL)
    return {name: (result, " ".join(given.split())) for result, name, given in found}


def field_of(kind, structures):
    """The type in C of a field, with its size and its alignment: one of FIELDS, or a structure."""
    if kind in FIELDS:
        return FIELDS[kind]
    fields = structures[kind]
    return NAMES[kind], offsets(fields, structures)[""], max(field_of(inner, structures)[2] for _, inner in fields)


def offsets(fields, structures):
    """Where each field begins, and the size of the whole, as C lays it out."""
    at, most, begins = 0, 1, {}
    for name, kind in fields:
        _, size, alignment = field_of(kind, structures)
        at = -(-at // alignment) * alignment
        begins[name], at, most = at, at + size, max(most, alignment)
    return {**begins, "": -(-at // most) * most}


def layouts(room, compiler, structures):
    """The same, as a compiled program tells it."""
    lines = [f'printf("{name} {field} %zu\\n", offsetof({name}, {field}));' for name, fields in structures.items() for field in fields if field]
    lines += [f'printf("{name}  %zu\\n", sizeof({name}));' for name in structures]
    source = room / "layout.c"
    source.write_text(f'#include "{HEADER}"\n#include <stdio.h>\nint main(void) {{\n' + "\n".join(lines) + "\nreturn 0;\n}\n")
    subprocess.run([compiler, "-std=c99", "-Wall", "-Wextra", "-Werror", "-o", room / "layout", source], check=True)
    found = {}
    for line in subprocess.run([room / "layout"], capture_output=True, text=True, check=True).stdout.splitlines():
        name, field, number = line.split(" ")
        found.setdefault(name, {})[field] = int(number)
    return found


def header_rows(tally, room, compilers):
    text, sources = HEADER.read_text(), structures_of_sources()
    wanted = {NAMES[name]: [(field_of(kind, sources)[0], field) for field, kind in fields] for name, fields in sources.items() if name != "Text"}
    tally.check("the structures of the header", structures_of_header(text), {"ssh_audit_bytes": BYTES, **wanted})
    tally.check("a word is one slice", sources.get("Text"), [("bytes", "&'a [u8]")])
    tally.check("the functions of the header", functions_of_header(text), functions_of_sources())
    laid_out = {NAMES[name]: offsets(fields, sources) for name, fields in sources.items() if name != "Text"}
    for compiler in compilers:
        tally.check(f"sizes and offsets by {compiler}", layouts(room, compiler, laid_out), laid_out)
