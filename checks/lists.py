"""Check that what is listed in several places is the same everywhere: refusals, kinds of file, records, calls, crates,
must-fail edits; and that each edit fits the file it changes.

Each list is taken from one place, where the library has it. Every other place that lists the same things, or says how
many they are, is held against it. docs/ARCHITECTURE.md says how one is added.

Usage: python3 checks/lists.py
Each miss is one line: the file, what is wrong there and what to write. The last line is 'N passed, M failed'; the exit
status is 1 if anything failed.
"""

import ast
import ctypes
import glob
import os
import re
import sys

ROOT = os.path.dirname(os.path.dirname(os.path.abspath(__file__)))

# the reference program's own lists
sys.path.insert(0, os.path.join(ROOT, "reference"))
sys.dont_write_bytecode = True
import etru_reference as reference
import library

REFUSALS = "crates/refusals/src/lib.rt"
KINDS = "crates/heads/src/kinds.rt"
RECORDS = "crates/*/src/**/*.rt"
CALLS = "crates/etru_c/src/lib.rt"
CRATES = "crates.txt"


class Report:
    def __init__(self):
        self.passed = 0
        self.failed = 0

    def check(self, holds, miss):
        if holds:
            self.passed += 1
        else:
            self.failed += 1
            print("FAILED " + miss)

    def same(self, place, source, wanted, found, to_write):
        """Two lists of (name, value): each name that is wanted is found once, with its value, and no other is found.

        `to_write` gives what to write for a name and its value.
        """
        for name, value in wanted:
            values = [other for found_name, other in found if found_name == name]
            if not values:
                self.check(False, f"{place}: {name} is missing, which {source} has: write {to_write(name, value)}")
            elif len(values) > 1:
                self.check(False, f"{place}: {name} is there {len(values)} times: leave it once")
            else:
                right, wrong = to_write(name, value), to_write(name, values[0])
                self.check(values == [value], f"{place}: {name} is not as in {source}: write {right}, not {wrong}")
        for name in sorted({name for name, _ in found} - {name for name, _ in wanted}):
            self.check(False, f"{place}: {name} is not in {source}: add it there or take it out here")

    def same_names(self, place, source, wanted, found, to_write):
        """The same for two lists of names."""
        valued = [[(name, None) for name in names] for names in (wanted, found)]
        self.same(place, source, *valued, lambda name, _: to_write(name))


# ---- Reading


def text(path):
    with open(os.path.join(ROOT, path), encoding="utf-8") as file:
        return file.read()


def files(*patterns):
    """The paths of the files of these patterns, from the root."""
    found = [path for pattern in patterns for path in glob.glob(os.path.join(ROOT, pattern), recursive=True)]
    return sorted(os.path.relpath(path, ROOT) for path in found if os.path.isfile(path))


def all_of(pattern, content):
    return re.findall(pattern, content, re.MULTILINE)


def numbered(pattern, content):
    """The names and numbers that a pattern finds."""
    return [(name, int(number)) for name, number in all_of(pattern, content)]


def between(begin, end, content):
    """What stands after a line that begins with `begin` and before the next that begins with `end`; else nothing."""
    found = re.search(rf"^{begin}.*\n((?:.*\n)*?){end}", content, re.MULTILINE)
    return found.group(1) if found else ""


def on_one_line(content):
    """C, Rust or Rattle without its comments."""
    return " ".join(re.sub(r"//.*", "", content).split())


def snake(name):
    """NotReducedModulo2 as not_reduced_modulo_2."""
    return re.sub(r"(?<=[a-z])(?=[A-Z0-9])|(?<=[A-Z])(?=[A-Z])", "_", name).lower()


# ---- Refusals: the names and numbers of the enum `Refusal`


def check_refusals(report):
    code = text(REFUSALS)
    refusals = numbered(r"^    (\w+) = (\d+),$", between("pub enum Refusal {", "}", code))
    report.check(refusals, f"{REFUSALS}: no line like 'WrongLength = 7,' is left to take the refusals from")
    miss = f"{REFUSALS}: the enum's variants do not have the numbers from 1 on, in order"
    report.check([number for _, number in refusals] == list(range(1, len(refusals) + 1)), miss)
    check_refusal_definition(report, refusals)

    constants = [("ETRU_OK", 0)] + [("ETRU_" + snake(name).upper(), number) for name, number in refusals]
    place = "include/etru.h"
    found = numbered(r"^ *(ETRU_\w+) = (\d+)", between(r"enum etru_refusal \{", "}", text(place)))
    report.same(place, REFUSALS, constants, found, lambda name, number: f"'{name} = {number}' in enum etru_refusal")

    place = "examples/seal_and_open.c"
    found = all_of(r"^ *\[(ETRU_\w+)\] = ", text(place))
    names = [name for name, _ in constants]
    report.same_names(place, REFUSALS, names, found, lambda name: f"'[{name}] = CONDITION' in `conditions`")

    place = "bindings/rust/src/refusals.rs"
    found = numbered(r"^    (\w+) = (\d+), ", between(r"refusals! \{", "}", text(place)))
    report.same(place, REFUSALS, refusals, found, lambda name, number: f"'{name} = {number}, CONDITION;' in refusals!")

    place = "bindings/rust/tests/interface/refusals.rs"
    found = [(name, int(number)) for number, name in all_of(r"^fn refusal_(\d+)_(\w+)\(", text(place))]
    wanted = [(snake(name), number) for name, number in refusals]
    report.same(place, REFUSALS, wanted, found, lambda name, number: f"a test 'refusal_{number:02}_{name}'")

    place = "reference/etru_reference.py"
    tuples = [node.elts for node in ast.walk(ast.parse(text(place))) if isinstance(node, ast.Tuple)]
    checks = [parts[0] for parts in tuples if len(parts) == 2 and isinstance(parts[1], ast.Lambda)]
    found = sorted({number.value for number in checks if isinstance(number, ast.Constant)})
    wanted, found = [[f"refusal {number}" for number in numbers] for numbers in (dict(refusals).values(), found)]
    report.same_names(place, REFUSALS, wanted, found, lambda name: f"{name} among the checks of a call")
    return len(refusals)


def check_refusal_definition(report, refusals):
    place = "crates/refusals/specs/Numbers.antt"
    found = numbered(r"^number_of Refusal\.(\w+) = (\d+)$", text(place))
    report.same(place, REFUSALS, refusals, found, lambda name, number: f"'number_of Refusal.{name} = {number}'")
    if sorted(found) == sorted(refusals):
        report.check(found == refusals, f"{place}: the clauses of `number_of` are not in the order of {REFUSALS}")


# ---- Kinds of file: the enum of `heads`


def check_kinds(report):
    kinds = numbered(r"^    (\w+) = (\d+),$", between("pub enum Kind {", "}", text(KINDS)))
    kinds = [(snake(name).upper(), number) for name, number in kinds]
    names = [name for name, _ in kinds]
    numbers = [f"kind {number}" for _, number in kinds]
    report.check(kinds, f"{KINDS}: no line like 'Public = 1,' is left to take the kinds from")

    # a kind that is not made of arrays alone has a name there, such as bundle_kind
    place = "crates/heads/specs/Kinds.antt"
    definition = between(r".*\bpub arrays_of :", "$", text(place))
    found = [first or second for first, second in all_of(r"\beqb kind (\d+)|^arrays_of (\d+) =", definition)]
    found = [f"kind {number}" for number in found + all_of(r"^\w+_kind = (\d+)$", text(place))]
    report.same_names(place, KINDS, numbers, found, lambda name: f"the arrays of {name} in `arrays_of`, or its name")

    place = "include/etru.h"
    header = text(place)
    found = numbered(r"^ *ETRU_(\w+)_FILE = (\d+)", between(r"enum etru_file_kind \{", "}", header))
    report.same(place, KINDS, kinds, found, lambda name, number: f"'ETRU_{name}_FILE = {number}' in etru_file_kind")
    for what in ("NUMBERS", "BYTES"):
        # the lengths of a bundle depend on the count of its entries too
        found = all_of(rf"^#define ETRU_(\w+)_FILE_{what}\(n(?:, count)?\)", header)
        report.same_names(place, KINDS, names, found, lambda name: f"the macro ETRU_{name}_FILE_{what}(n)")

    variants = [(name.title().replace("_", ""), number) for name, number in kinds]
    place = "bindings/rust/src/lib.rs"
    found = numbered(r"^    (\w+) = (\d+),", between(r"pub enum Kind \{", "}", text(place)))
    report.same(place, KINDS, variants, found, lambda name, number: f"'{name} = {number},' in enum Kind")

    place = "bindings/rust/tests/interface/lengths.rs"
    found = re.findall(r"Kind::(\w+)", "".join(all_of(r"^const KINDS: &\[Kind\] = &\[([^\]]*)\];", text(place))))
    report.same_names(place, KINDS, [name for name, _ in variants], found, lambda name: f"Kind::{name} in `KINDS`")

    place = "reference/etru_reference.py"
    found = [(name[: -len("_FILE")], value) for name, value in vars(reference).items() if name.endswith("_FILE")]
    report.same(place, KINDS, kinds, found, lambda name, number: f"{name}_FILE with the value {number}")
    found = [f"kind {number}" for number in reference.KINDS]
    report.same_names(place, KINDS, numbers, found, lambda name: f"the arrays of {name} in `KINDS`")
    return len(kinds)


# ---- Types of what is lent

IN_C = {"u8": "uint8_t", "u16": "uint16_t", "u32": "uint32_t", "i32": "int32_t", "i64": "int64_t", "usize": "size_t"}
IN_C["PlacedUnit"] = "struct etru_placed_unit"
IN_PYTHON = {
    "u8": ctypes.c_uint8,
    "u16": ctypes.c_uint16,
    "u32": ctypes.c_uint32,
    "i32": ctypes.c_int32,
    "i64": ctypes.c_int64,
    "usize": ctypes.c_size_t,
    "PlacedUnit": library.PlacedUnit,
}


# ---- Records: the structs that are laid out as in C, with their fields


def check_records(report):
    code = on_one_line("".join(map(text, files(RECORDS))))
    records = re.findall(r"#\[repr\(C\)\] (?:#\[[^\]]*\] )*pub struct (\w+) \{([^}]*)\}", code)
    report.check(records, f"{RECORDS}: no struct with #[repr(C)] is left to take the records from")
    for record, declared in records:
        fields = re.findall(r"pub (\w+): (\w+)", declared)

        place = "include/etru.h"
        found = on_one_line(between(rf"{IN_C[record]} \{{", r"\};", text(place)))
        wanted = " ".join(f"{IN_C[number]} {name};" for name, number in fields)
        report.check(found == wanted, f"{place}: {IN_C[record]} is not as in {RECORDS}: write '{wanted}' and no more")

        place = "bindings/rust/src/lib.rs"
        pattern = rf"#\[repr\(C\)\] (?:#\[[^\]]*\] )*pub struct {record} \{{([^}}]*)\}}"
        found = [re.findall(r"pub (\w+): (\w+)", content) for content in re.findall(pattern, on_one_line(text(place)))]
        wanted = ", ".join(f"pub {name}: {number}" for name, number in fields)
        report.check(found == [fields], f"{place}: {record} is not as in {RECORDS}: write '{wanted}' below #[repr(C)]")

        place = "reference/library.py"
        found = [(name, number.__name__) for name, number in IN_PYTHON[record]._fields_]
        wanted = [(name, IN_PYTHON[number].__name__) for name, number in fields]
        report.check(found == wanted, f"{place}: {record} is not as in {RECORDS}: write {wanted} as its fields")


# ---- Calls: the exports of `etru_c`, with their arguments


def arguments(signature):
    """The arguments as (name, lent, type): `lent` is '', '&' or '&mut '. A slice is an address and a count."""
    found = []
    for name, lent, array, number in re.findall(r"(\w+): (&mut |&|)(?:\[(\w+)\]|(\w+))", signature):
        found.append((name, lent, array or number))
        if array:
            found.append((name + "_count", "", "usize"))
    return found


def c_argument(name, lent, number):
    return {"": "{1} {0}", "&": "const {1} *{0}", "&mut ": "{1} *{0}"}[lent].format(name, IN_C[number])


def rust_argument(name, lent, number):
    return {"": "{0}: {1}", "&": "{0}: *const {1}", "&mut ": "{0}: *mut {1}"}[lent].format(name, number)


def python_argument(_, lent, number):
    return ctypes.POINTER(IN_PYTHON[number]) if lent else IN_PYTHON[number]


def declarations(pattern, content):
    """What a pattern finds in a file, with the name that its group finds."""
    found = [(match.group(1), match.group(0)) for match in re.finditer(pattern, on_one_line(content))]
    return [(name, re.sub(r",? ?\)", ")", declaration.replace("( ", "("))) for name, declaration in found]


def check_calls(report):
    code = on_one_line(text(CALLS))
    calls = [(name, arguments(given)) for name, given in re.findall(r'pub extern "C" fn (\w+)\(([^)]*)\) -> u32', code)]
    names = [name for name, _ in calls]
    miss = f"{CALLS}: no calls can be taken from it, since they are not all like 'pub extern \"C\" fn NAME(..) -> u32'"
    report.check(calls and len(calls) == code.count("pub extern"), miss)

    for place, pattern, argument, declaration in [
        ("include/etru.h", r"\w+ \**(etru_\w+)\([^)]*\);", c_argument, "uint32_t {}({});"),
        ("bindings/rust/src/sys.rs", r"pub fn (\w+)\([^)]*\)[^;]*;", rust_argument, "pub fn {}({}) -> u32;"),
    ]:
        in_place = [(name, ", ".join(argument(*part) for part in given)) for name, given in calls]
        wanted = [(name, declaration.format(name, given)) for name, given in in_place]
        report.same(place, CALLS, wanted, declarations(pattern, text(place)), lambda _, declared: f"'{declared}'")

    place = "reference/library.py"
    wanted = [(name, [python_argument(*part) for part in given]) for name, given in calls]
    found = list(library.ARGUMENTS.items())
    shown = "{}: {} in `ARGUMENTS`".format
    report.same(place, CALLS, wanted, found, lambda name, given: shown(name, [part.__name__ for part in given]))
    found = set(re.findall(r"\bself\.library\.(etru_\w+)", text(place)))
    report.same_names(place, CALLS, names, found, lambda name: f"a method of `Library` that calls {name}")

    place = "bindings/rust/src/*.rs"
    found = set(re.findall(r"\bsys::(etru_\w+)\(", "".join(map(text, files(place)))))
    report.same_names(place, CALLS, names, found, lambda name: f"a safe function that calls sys::{name}")

    place = "reference/etru_reference.py"
    found = ["etru_" + name for name in all_of(r"^def call_(\w+)\(", text(place))]
    report.same_names(place, CALLS, names, found, lambda name: f"a function 'call_NAME' for {name}")

    place = "reference/compare*.py"
    compared = "".join(map(text, files(place)))
    for name in names:
        short = name[len("etru_") :]
        miss = f"{place}: {name} is not compared: call library.{short}, or list it in `CALLS`"
        report.check(re.search(rf'\blibrary\.{short}\(|"{short}"', compared), miss)

    for comparison in files(place):
        for runner in (".ci/run", "README.md"):
            miss = f"{runner}: {comparison} is not run: write 'python3 {comparison}'"
            report.check(f"python3 {comparison}" in text(runner), miss)

    place = "docs/PROVED.md"
    said = re.findall(r"`(etru_\w+)`", text(place))
    for name in names:
        report.check(name in said, f"{place}: nothing is said of `{name}`: write where it is defined and proved")


# ---- Crates: crates.txt, and what each crate's files say that it uses


def used_names(crate, listed):
    """The crates that a crate's files name: as Rattle.NAME in definitions and proofs, and in code also by a path."""
    names = set()
    code = files(f"crates/{crate}/src/**/*.rt")
    # a module of the crate's own may have the name of a crate
    modules = {name for path in code for name in all_of(r"^(?:pub )?mod (\w+)", text(path))}
    for path in code:
        content = re.sub(r"//.*", "", text(path))
        named = all_of(r"(?<![\w:])(\w+)::", content) + all_of(r"^use (\w+)", content)
        names |= set(named) & listed - modules
        names |= set(all_of(r"\bRattle\.(\w+)\.", content))
    for path in files(f"crates/{crate}/specs/**/*.antt", f"crates/{crate}/proofs/**/*.antt"):
        names |= set(all_of(r"\bRattle\.(\w+)\.", re.sub(r"(?m)(^|\s)--(\s.*)?$", "", text(path))))
    # std is always there, and never listed
    return names - {crate, "std"}


def check_crates(report):
    uses = {}
    for line in text(CRATES).splitlines():
        head, _, used = line.partition("#")[0].partition(":")
        if head.strip():
            # 'staticlib' may stand behind the name
            uses[head.split()[0]] = used.split()
    listed = set(uses).union(*uses.values())
    folders = sorted({path.split(os.sep)[1] for path in files("crates/*/src/*")})
    report.same_names(CRATES, "crates/", folders, uses, lambda name: f"'{name}:' and what it uses")

    levels = {}
    for crate, used in uses.items():
        # the kit's own libraries have no level
        below = [levels.get(name) for name in used if name in uses]
        report.check(None not in below, f"{CRATES}: {crate} stands above a crate that it uses: list what is used first")
        levels[crate] = 1 + max([level for level in below if level is not None], default=-1)
        found = used_names(crate, listed)
        for name in used:
            report.check(name in found, f"{CRATES}: {crate} lists {name}, which none of its files uses: take it out")
        for name in sorted(found - set(used)):
            report.check(False, f"{CRATES}: {crate} uses {name}, which is not listed: write it behind '{crate}:'")

    place = "docs/ARCHITECTURE.md"
    row = "'| {} | `{}` | {} |'".format
    rows = all_of(r"^\| (\d+) \| `(\w+)` \| ([^|]*?) *\|", text(place))
    wanted = [(crate, row(level, crate, " ".join(uses[crate]) or "—")) for crate, level in levels.items()]
    found = [(crate, row(level, crate, used)) for level, crate, used in rows]
    report.same(place, CRATES, wanted, found, lambda _, written: written)

    place = "README.md"
    found = all_of(r"^\| [^|]* \| `(\w+)` \| ", text(place))
    report.same_names(place, CRATES, uses, found, lambda name: f"a row for `{name}` in the table of crates")
    return len(uses), len(set(levels.values()))


# ---- Must-fail edits


def check_edits(report):
    place = "docs/PROVED.md"
    edits = [os.path.splitext(os.path.basename(path))[0] for path in files("crates/*/must-fail/*.edit")]
    named = set(re.findall(r"`([a-z0-9_]+)`", text(place)))
    for edit in sorted(set(edits)):
        report.check(edit in named, f"{place}: the edit {edit} is not named: name it in the row of what it shows")
    for place in files("crates/*/must-fail/*.edit"):
        edited = {}
        for line in text(place).splitlines():
            key, _, value = line.partition(": ")
            if key == "file":
                name = os.path.join(os.path.dirname(os.path.dirname(place)), value)
                edited.setdefault(name, text(name))
            elif key == "old":
                old = value
                count = edited[name].count(old)
                report.check(count == 1, f"{place}: what it replaces stands {count} times in {name}: {old}")
            elif key == "new":
                edited[name] = edited[name].replace(old, value, 1)


# ---- What is said of how many there are

# what is counted: how it is said, the pattern of that, whose group is the number, and the files that have to say it
COUNTED = {
    "refusals": (
        "N refusals",
        r"\b(\d+) refusals\b",
        ["README.md", "docs/ARCHITECTURE.md", "bindings/rust/README.md"],
    ),
    "kinds": ("N kinds of file", r"\b(\w+) kinds of file\b", ["README.md"]),
    "last kind": (
        "kind .. 1 to N",
        r"\bkind\b[^.;\n]*?\b1 to (\d+)",
        ["include/etru.h", "examples/seal_and_open.c", "bindings/rust/src/refusals.rs", "docs/DECISIONS.md"],
    ),
    "crates": ("N crates in M levels", r"\b(\w+) crates in \w+ levels\b", ["docs/ARCHITECTURE.md"]),
    "levels": ("N crates in M levels", r"\b\w+ crates in (\w+) levels\b", ["docs/ARCHITECTURE.md"]),
}
TEXTS = ["*.md", "docs/*.md", "include/*", "examples/*", "bindings/**/*.md", "bindings/**/*.rs", "reference/*.py"]
TEXTS += ["crates/*/src/**/*.rt", "crates/*/specs/**/*.antt", "crates/*/proofs/**/*.antt"]
WORDS = "zero one two three four five six seven eight nine ten eleven twelve thirteen fourteen fifteen sixteen".split()
WORDS += "seventeen eighteen nineteen twenty".split()


def in_words(number):
    return WORDS[number] if number < len(WORDS) else str(number)


def check_counts(report, counts):
    texts = {place: text(place) for place in files(*TEXTS)}
    for what, (example, pattern, required) in COUNTED.items():
        for place in required:
            miss = f"{place}: nothing like '{example}' is said any more: say it, or change COUNTED in checks/lists.py"
            report.check(re.search(pattern, texts[place], re.IGNORECASE), miss)
        for place, content in texts.items():
            for match in re.finditer(pattern, content, re.IGNORECASE):
                said = match.group(1).lower()
                if said.isdigit() or said in WORDS:
                    right = str(counts[what]) if said.isdigit() else in_words(counts[what])
                    line = content.count("\n", 0, match.start()) + 1
                    report.check(said == right, f"{place}, line {line}: '{match.group(0)}': write {right} for {said}")


def main():
    report = Report()
    refusals = check_refusals(report)
    kinds = check_kinds(report)
    check_records(report)
    check_calls(report)
    crates, levels = check_crates(report)
    check_edits(report)
    check_counts(report, {"refusals": refusals, "kinds": kinds, "last kind": kinds, "crates": crates, "levels": levels})
    print(f"{report.passed} passed, {report.failed} failed")
    return 1 if report.failed or not report.passed else 0


if __name__ == "__main__":
    sys.exit(main())
