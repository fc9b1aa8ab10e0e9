#!/usr/bin/env python3
"""The C calls, read from include/krzewido.h, and held against what the crates say.

The header is the one list of the calls: tools/library writes them for other processors from it. Run by itself this says whether the
header's calls, records, refusal numbers and limits are those of the crates, each and no other, and fails where they are not."""
import re
import sys
from collections import namedtuple
from pathlib import Path

ROOT = Path(__file__).resolve().parent.parent
HEADER = ROOT / "include/krzewido.h"
CALLS = ROOT / "crates/finder_c/src/lib.rt"
RULES = ROOT / "crates/rules/src/lib.rt"
LAYOUT = ROOT / "crates/rules/src/layout.rt"

# A parameter is its C type and name; the length behind a slice's pointer is a parameter of its own.
Call = namedtuple("Call", "result parameters")

SCALARS = {"u8": "uint8_t", "u32": "uint32_t", "u64": "uint64_t", "i32": "int32_t"}

# The header's name of each limit, and the constant that it stands for.
LIMITS = {
    "KRZ_STANDS_MOST": "Stand::MOST",
    "KRZ_NAME_MOST": "Stand::NAME_MOST",
    "KRZ_SCORE_MOST": "Stand::SCORE_MOST",
    "KRZ_EDGE_MOST": "Grid::EDGE_MOST",
    "KRZ_CELL_MOST": "Grid::CELL_MOST",
    "KRZ_GRID_SIDE": "Grid::SIDE",
    "KRZ_WEIGHT_MOST": "Ranking::WEIGHT_MOST",
    "KRZ_K_MOST": "Ranking::K_MOST",
    "KRZ_NODE_WORDS": "NODE_WORDS",
    "KRZ_ENTRY_WORDS": "ENTRY_WORDS",
    "KRZ_RECORD_WORDS": "RECORD_WORDS",
}

# The desk program's own: no call of the library gives it.
NOT_FOR_C = "INPUT_MALFORMED"


def bare(path):
    """A file's text without its comments."""
    return re.sub(r"/\*.*?\*/|//[^\n]*", "", path.read_text(), flags=re.S)


def declared():
    """The header's calls."""
    found = {}
    for result, name, inside in re.findall(r"^(\w+) (krz_\w+)\(([^)]*)\);", bare(HEADER), flags=re.M):
        parameters = [] if inside.strip() == "void" else [
            re.fullmatch(r"(.*?)(\w+)", " ".join(one.split())).groups() for one in inside.split(",")]
        found[name] = Call(result, [(kind.strip(), called) for kind, called in parameters])
    return found


def spaced(name):
    """A name of a type or case, its words put apart by underscores."""
    return re.sub(r"(?<=[a-z])(?=[A-Z])", "_", name)


def in_c(kind):
    """A Rattle type that crosses, as C writes it; a slice is its pointer."""
    lent = re.fullmatch(r"&(mut )?(?:\[(\w+)\]|(\w+))", kind)
    if lent:
        return f"{'' if lent[1] else 'const '}{in_c(lent[2] or lent[3])} *"
    return SCALARS.get(kind) or "krz_" + spaced(kind).lower()


def exported():
    """The library's calls, as C would declare them."""
    found = {}
    for name, inside, result in re.findall(r'pub extern "C" fn (\w+)\(([^)]*)\)(?:\s*->\s*(\w+))?', bare(CALLS)):
        parameters = []
        for called, kind in re.findall(r"(\w+): ([^,]+?)\s*(?:,|$)", inside):
            parameters.append((in_c(kind), called))
            if "[" in kind:
                parameters.append(("size_t", called + "_len"))
        found[name] = Call(in_c(result) if result else "void", parameters)
    return found


def prototypes(calls):
    """Calls as C writes them, each on a line."""
    return {name: f"{call.result} ({', '.join(' '.join(one) for one in call.parameters) or 'void'})" for name, call in calls.items()}


def records():
    """The header's records: each field's type, name and number of elements, as written."""
    found = {}
    for inside, name in re.findall(r"typedef struct \{([^}]*)\} (\w+);", bare(HEADER)):
        found[name] = [(kind, called, many) for kind, names in re.findall(r"(\w+) ([^;]+);", inside)
                       for called, many in re.findall(r"(\w+)(?:\[([^\]]+)\])?", names)]
    return found


def laid_out():
    """The records that the crates lay out for C."""
    counts = {"Stand::NAME_MOST": "KRZ_NAME_MOST", "Session::PATH": "KRZ_NAME_MOST + 1"}
    found = {}
    for path in (CALLS, RULES):
        for name, inside in re.findall(r"#\[repr\(C\)\]\s*(?:#\[[^\]]*\]\s*)*pub struct (\w+) \{([^}]*)\}", bare(path)):
            found[in_c(name)] = [(SCALARS[kind or array], called, counts.get(many, many)) for called, kind, array, many in
                                 re.findall(r"pub (\w+): (?:(\w+)|\[(\w+); ([^\]]+)\]),", inside)]
    return found


def numbers():
    """The header's refusal numbers."""
    return {name: int(value) for name, value in re.findall(r"KRZ_(\w+) = (\d+)", bare(HEADER))}


def refusals():
    """The crates' refusal numbers: a case of the enum without one has the next."""
    cases = re.search(r"pub enum Refusal \{([^}]*)\}", bare(RULES))
    found = {}
    number = -1
    for name, value in re.findall(r"(\w+)(?: = (\d+))?,", cases[1] if cases else ""):
        number = int(value) if value else number + 1
        found[spaced(name).upper()] = number
    return found


def limits():
    """The header's limits, as they are in the crates."""
    found = {}
    for path in (RULES, LAYOUT):
        owner = ""
        for line in bare(path).splitlines():
            owner = "" if line.startswith("}") else line[5:-1].strip() + "::" if line.startswith("impl ") else owner
            constant = re.search(r"pub const (\w+): \w+ = ([\d_]+);", line)
            if constant:
                found[owner + constant[1]] = int(constant[2])
    return {name: found.get(constant) for name, constant in LIMITS.items()}


def disagreements():
    """What the header says otherwise than the crates, a line for each."""
    meant = {name: value for name, value in refusals().items() if name != NOT_FOR_C}
    written = {name: int(value) for name, value in re.findall(r"#define (KRZ_\w+) (\d+)\s", bare(HEADER))}
    said = {name: value for name, value in numbers().items() if value}
    for what, ours, theirs in (("call", prototypes(declared()), prototypes(exported())), ("record", records(), laid_out()),
                               ("refusal", said, meant), ("limit", written, limits())):
        if not theirs:
            yield f"no {what} was found in the crates"
        for name in sorted(ours.keys() | theirs.keys()):
            if ours.get(name) != theirs.get(name):
                yield f"{what} {name}: the header has {ours.get(name)}, the crates {theirs.get(name)}"


if __name__ == "__main__":
    faults = list(disagreements())
    print("\n".join(faults) or f"the header has the library's {len(declared())} calls, and the crates' records, refusals and limits")
    sys.exit(1 if faults else 0)
