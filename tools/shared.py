"""What several tools need: lines of a file, where its functions begin and end, the groups of
crates.txt, the toolchain's command."""
import functools
import importlib.machinery
import importlib.util
import os
import re
import shutil
import sys

# The indent of a function, its `pub` if it has one, its name.
FUNCTION = re.compile(r"( *)(pub(?:\([^)]*\))? )?(?:const )?(?:unsafe )?fn (\w+)")


def lines_of(file):
    """Returns the lines of a file."""
    with open(file, encoding="utf-8") as it:
        return it.read().split("\n")[:-1]


@functools.cache
def text_of(file):
    """Returns the text of a file; none of one that is not there."""
    if not os.path.isfile(file):
        return ""
    with open(file, encoding="utf-8") as it:
        return it.read()


def ends_head(head, indent):
    """Returns true if the last of some lines ends the head of a function, its contract with it:
    `};` does if it closes no part of a clause."""
    line, text = head[-1], "".join(head)
    if line.endswith("};") and text.count("{") == text.count("}"):
        return True
    stands_out = len(head) == 1 or line[:len(indent) + 1].strip()
    return bool(line.endswith(("{", "}", ";")) and stands_out)


def functions(lines):
    """Yields each function of code: its name, and the indexes of its first line, of the last line
    of its head, and of its last line. The last two are the same if its body is one line or none."""
    at = 0
    while at < len(lines):
        found = FUNCTION.match(lines[at])
        if not found:
            at += 1
            continue
        indent, start = found.group(1), at
        while not ends_head(lines[start:at + 1], indent):
            at += 1
        head = at
        if lines[at].endswith("{"):
            while lines[at] != indent + "}":
                at += 1
        yield found.group(3), start, head, at
        at += 1


def groups():
    """Returns the group of each crate of crates.txt, in order: the heading above it, up to its
    colon."""
    found, group = {}, ""
    for line in lines_of("crates.txt"):
        heading = re.match(r"# ((?:\d+ )?[\w' ]+):", line)
        group = heading[1] if heading else group
        crate = re.match(r"\w+", line)
        found.update({crate[0]: group} if crate else {})
    return found


def toolchain():
    """Loads the toolchain's command `rt` as a module."""
    sys.dont_write_bytecode = True
    path = os.path.realpath(shutil.which("rt") or sys.exit("there is no rt on the PATH"))
    loader = importlib.machinery.SourceFileLoader("script_rt", path)
    made = importlib.util.module_from_spec(importlib.util.spec_from_loader("script_rt", loader))
    loader.exec_module(made)
    return made
