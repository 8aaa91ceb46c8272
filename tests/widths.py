"""widths.py [FILE]: makes the table of wide characters anew from the lines of crates/widths/stdin, and compares it with each copy of it.

FILE is EastAsianWidth.txt of Unicode 15.0.0. Where none is given, the one that Debian installs is looked for, and passed over if it is of another version.
"""
import hashlib
import itertools
import os
import re
import sys

INSTALLED = "/usr/share/unicode/EastAsianWidth.txt"
DIGEST = "743e7bc435c04ab1a8459710b1c3cad56eedced5b806b4659b6e69b85d0adf2a"
VERSION = "15.0.0"
LINES = "crates/widths/stdin"
LINES_DIGEST = "2191eb708ce95d1ec5fbcc80b38ae94e026f50606206de85e06c5d0e6fad0be9"
PRINTED = "crates/widths/stdout"
DEFINED = "crates/cells/specs/Wide.antt"
CODED = "crates/cells/src/lib.rt"
COMPARED = "host/compare/src/widths.rs"
NAMING = ("docs/SCOPE.md", "NOTICE")
RULES = "docs/SCOPE.md"
VERSIONED = (DEFINED, COMPARED, "include/winchbarn.h", "host/winchbarn/src/lib.rs", *NAMING)
SCALARS = 0x110000 - 0x800  # all code points but the surrogates
WIDE = 182_516  # how many of them are W or F


class Wrong(Exception):
    pass


def read(path):
    with open(path, encoding="utf-8", newline="") as file:
        return file.read()


def rows(path):
    return read(path).removesuffix("\n").split("\n")


def entries():
    """What stands before the first blank of each line, and its first and last code point."""
    for number, row in enumerate(rows(LINES), 1):
        form = re.fullmatch(r"(([0-9A-F]{4,6})(?:\.\.([0-9A-F]{4,6}))?;[WF]) .*", row)
        if not form:
            raise Wrong(f"{LINES}:{number}: not a line of W or F")
        head, first, last = form.groups()
        yield head, int(first, 16), int(last or first, 16)


def ranges():
    """The ranges of the lines, merged where they adjoin."""
    merged = []
    for _, first, last in entries():
        if merged and merged[-1][1] + 1 == first:
            first = merged.pop()[0]
        merged.append((first, last))
    return merged


def one(path, pattern):
    found = re.findall(pattern, read(path), re.MULTILINE | re.DOTALL)
    if len(found) != 1:
        raise Wrong(f"{path}: the table is there {len(found)} times")
    return "".join(found[0].split())


def shown(item):
    if isinstance(item, tuple):
        return " to ".join(f"0x{number:X}" for number in item)
    return "nothing" if item is None else repr(item)


def same(path, found, made, source=LINES):
    for number, (here, there) in enumerate(itertools.zip_longest(found, made), 1):
        if here != there:
            raise Wrong(f"{path}: item {number} is {shown(here)}, and by {source} {shown(there)}")


def numbers(path, form, text):
    found = re.fullmatch(form, text)
    if not found:
        raise Wrong(f"{path}: {text} is no item of the table")
    return tuple(int(number, 16) for number in found.groups())


def digest_of(path):
    with open(path, "rb") as file:
        return hashlib.sha256(file.read()).hexdigest()


def lines_are_kept():
    if digest_of(LINES) != LINES_DIGEST:
        raise Wrong(f"{LINES}: not the lines that were taken from the file")


def lines_ascend():
    end = 0
    for number, (head, first, last) in enumerate(entries(), 1):
        if not end <= first <= last < 0x110000:
            raise Wrong(f"{LINES}:{number}: {head} is out of order")
        end = last + 1


def definition_is_made():
    *items, last = one(DEFINED, r"^ranges =\n(.*?)\n\n").split("∷")
    if last != "[]":
        raise Wrong(f"{DEFINED}: the list ends in {last}")
    same(DEFINED, [numbers(DEFINED, r"\(0x([0-9A-F]+),0x([0-9A-F]+)\)", item) for item in items], ranges())


def code_is_made():
    items = one(CODED, r"^const WIDE: \[u32; \d+\] = \[\n(.*?)^\];$").removesuffix(",").split(",")
    edges = [(edge,) for first, last in ranges() for edge in (first, last + 1)]
    same(CODED, [numbers(CODED, r"0x([0-9A-F]+)", item) for item in items], edges)


def comparison_is_made():
    found = re.findall(r"\(\s*0x([0-9A-Fa-f_]+)\s*,\s*0x([0-9A-Fa-f_]+)\s*\)", read(COMPARED))
    same(COMPARED, [(int(first, 16), int(last, 16)) for first, last in found], ranges())


def printed_follows():
    sizes = [(head, last + 1 - first) for head, first, last in entries()]
    total = sum(size for _, size in sizes)
    made = [f"{head} {size}" for head, size in sizes]
    made += [f"wide in {len(sizes)} lines: {total}", f"wide of {SCALARS} scalars: {total}"]
    same(PRINTED, rows(PRINTED), made)
    if total != WIDE:
        raise Wrong(f"{LINES}: {total} code points, and not {WIDE}")


def digest_is_named():
    silent = [path for path in NAMING if DIGEST not in read(path)]
    if silent:
        raise Wrong(f"{', '.join(silent)}: the digest {DIGEST} is not named")


def version_is_named():
    silent = [path for path in VERSIONED if f"Unicode {VERSION}" not in read(path)]
    if silent:
        raise Wrong(f"{', '.join(silent)}: Unicode {VERSION} is not named")
    counts = f"{WIDE:,} code points in {len(ranges())} ranges"
    if counts not in read(RULES):
        raise Wrong(f"{RULES}: does not say {counts}")


def lines_are_of(path, whole):
    wide = [row for row in whole.splitlines(keepends=True) if re.match(rb"[0-9A-F.]+;[WF]", row)]
    with open(LINES, "rb") as file:
        same(LINES, file.read().splitlines(keepends=True), wide, path)


def file_is_compared(given):
    """Whether it was: where no path is given, one of another version is no failure."""
    path = given or INSTALLED
    if not given and not os.path.exists(path):
        print(f"{path} is not installed: the comparison of the lines with it was passed over", file=sys.stderr)
        return False
    with open(path, "rb") as file:
        whole = file.read()
    digest = hashlib.sha256(whole).hexdigest()
    if digest == DIGEST:
        lines_are_of(path, whole)
        return True
    told = f"{path} is of another version, with the digest {digest}"
    if given:
        raise Wrong(told)
    print(f"{told}: the comparison of the lines with it was passed over", file=sys.stderr)
    return False


def main():
    given = sys.argv[1] if len(sys.argv) > 1 else None
    checks = [lines_are_kept, lines_ascend, definition_is_made, code_is_made, comparison_is_made, printed_follows, digest_is_named, version_is_named]
    checks.append(lambda: file_is_compared(given))
    passed = failed = 0
    for check in checks:
        try:
            passed += check() is not False
        except (Wrong, OSError, ValueError) as wrong:
            failed += 1
            print(wrong, file=sys.stderr)
    print(f"{passed} passed, {failed} failed")
    sys.exit(failed != 0 or passed == 0)


main()
