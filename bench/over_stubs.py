#!/usr/bin/env python3
"""Checks a crate over stubs of the crates below it, so that it can be proved while these are not.

    bench/over_stubs.py CRATE [--only PATH ..] [--room DIR] [--raw]

Of each crate below, the types, the clauses, the definitions and the files of lemmas are as they stand here; each
function's body is `unreachable!()`, with a hole as its proof. So what is open in the crate itself is told, and nothing
of those below, whose functions cost nothing. It is no verdict: `rt check` is. Without --only all functions of the
crate are checked, tests aside. A path is that of the function's folder in proofs/, as space::Space::bring. The first
run checks the definitions below, in a minute or two; what it checked is kept in the room, and later runs take seconds.
Several crates can be checked at once. Exit status 0 where nothing is open, 1 otherwise."""

import argparse
import hashlib
import importlib.machinery
import importlib.util
import os
import re
import shutil
import subprocess
import sys
import tempfile

sys.dont_write_bytecode = True
TOP = os.path.dirname(os.path.dirname(os.path.abspath(__file__)))
KIT = os.environ.get("RATTLE_KIT") or os.path.dirname(os.path.dirname(os.path.realpath(shutil.which("rt") or "rt")))
FUNCTION = re.compile(r"(?m)^([ \t]*)(?:#\[[^\n]*\][ \t]*)*(?:pub(?:\([a-z]+\))?[ \t]+)?(?:const[ \t]+)?fn[ \t]+(\w+)")
HOLE = "use Rattle.{name}.proofs.{path}.Goals as goal\n\npub unreachable-requires : goal.unreachable-requires\nunreachable-requires = ?\n"


def kit():
    """The kit's own reading of crates.txt and of what a crate stands on."""
    loader = importlib.machinery.SourceFileLoader("rtlib", f"{KIT}/bin/rtlib.py")
    made = importlib.util.module_from_spec(importlib.util.spec_from_loader("rtlib", loader))
    sys.modules["rtlib"] = made
    loader.exec_module(made)
    return made


def behind(text, at, opens, closes):
    """The place behind the bracket that closes the one at a place."""
    depth = 0
    while at < len(text):
        if text.startswith("//", at):
            at = text.find("\n", at)
            continue
        literal = re.compile(r'"(?:\\.|[^"\\])*"|\'(?:\\.[^\']*|[^\'\\])\'', re.S).match(text, at)
        if literal:
            at = literal.end()
            continue
        depth += (text[at] == opens) - (text[at] == closes)
        at += 1
        if not depth:
            return at
    raise ValueError("a bracket is not closed")


def body_of(text, found):
    """Where the body of a function begins, or None where it has none."""
    at = found.end()
    while at < len(text):
        if text.startswith("//", at):
            at = text.find("\n", at)
        elif text[at] in "([":
            at = behind(text, at, text[at], {"(": ")", "[": "]"}[text[at]])
        elif text[at] == "{":
            before = text[found.end() : at]
            if not re.search(r"(?:\b(ensures|requires)\*?|\bghost)(?:\s+\w+)?:?\s*$", before):
                return at
            at = behind(text, at, "{", "}")
        elif text[at] == ";":
            return None
        else:
            at += 1
    return None


def first_word(text):
    found = re.match(r"\w+", text.strip())
    return found[0] if found else ""


def blocks_of(text):
    """The impl blocks: where each begins and ends, its type, and its trait with the type that this is over."""
    for found in re.finditer(r"(?m)^impl\b([^{]*)\{", text):
        head = found[1].strip()
        if head.startswith("<"):
            depth = 0
            for at, letter in enumerate(head):
                depth += (letter == "<") - (letter == ">" and head[at - 1] != "-")
                if not depth:
                    head = head[at + 1 :].strip()
                    break
        head = re.split(r"\bwhere\b", head)[0].strip()
        parts = re.split(r"\bfor\b", head)
        of = re.match(r"(\w+)\s*(?:<(.*)>)?$", parts[0].strip()) if len(parts) == 2 else None
        over = re.sub(r"^&('\w+ )?", "", of[2]) if of and of[2] else ""
        trait = of[1] + ("" if re.fullmatch(r"'?\w?", over) else first_word(over)) if of else ""
        yield found.start(), behind(text, found.end() - 1, "{", "}"), first_word(parts[-1]), trait


def functions_of(folder):
    """For each function with a body: its file, where its body begins and ends, and its path, as in proofs/."""
    files = sorted(it for it in os.listdir(f"{folder}/src") if it.endswith(".rt") and it != "tests.rt")
    texts = {it: open(f"{folder}/src/{it}", encoding="utf-8").read() for it in files}
    home = {name: it[:-3] for it, text in texts.items() for name in re.findall(r"(?m)^(?:pub(?:\([a-z]+\))? )?(?:struct|enum) (\w+)", text)}
    for file, text in texts.items():
        blocks = [*blocks_of(text)]
        for found in FUNCTION.finditer(text):
            start = body_of(text, found)
            if start is None or re.search(r"\bconst\s+fn", found[0]):
                continue
            within = [it for it in blocks if it[0] < found.start() < it[1]]
            module, last = file[:-3], [found[2]]
            if within:
                _, _, type_of, trait = within[0]
                module = module if trait else home.get(type_of, module)
                last = [type_of + trait, found[2]]
            elif found[1]:
                # in a trait: what it gives by itself
                continue
            yield file, start, behind(text, start, "{", "}"), ([] if module in ("lib", "main") else [module]) + last


def stub(crate, to):
    """Makes a stub of a crate."""
    shutil.rmtree(to, ignore_errors=True)
    shutil.copytree(crate.folder, to, ignore=shutil.ignore_patterns("out", "must-fail", "data"))
    for it in os.listdir(f"{to}/proofs") if os.path.isdir(f"{to}/proofs") else []:
        if os.path.isdir(f"{to}/proofs/{it}"):
            shutil.rmtree(f"{to}/proofs/{it}")
    cuts = {}
    for file, start, end, path in functions_of(to):
        cuts.setdefault(file, []).append((start, end, path))
    for file, places in cuts.items():
        with open(f"{to}/src/{file}", encoding="utf-8") as it:
            text, out, last = it.read(), [], 0
        for start, end, path in sorted(places):
            if start < last or not text[start + 1 : end - 1].strip():
                continue
            out += [text[last:start], "{ unreachable!() }"]
            last = end
            os.makedirs(f"{to}/proofs/{'/'.join(path)}", exist_ok=True)
            with open(f"{to}/proofs/{'/'.join(path)}/Answers.antt", "w", encoding="utf-8") as it:
                it.write(HOLE.format(name=crate.name, path=".".join(path)))
        text = re.sub(r"(?m)^[ \t]*#\[(cycle|tactic)\([^\n]*\)\][ \t]*\n", "", "".join(out) + text[last:])
        with open(f"{to}/src/{file}", "w", encoding="utf-8") as it:
            it.write(text)


def stamp_of(folder):
    """What a stub is made of: all but proofs of functions."""
    found = hashlib.sha256()
    for part, deep in (("src", True), ("specs", True), ("proofs", False)):
        for at, folders, files in os.walk(f"{folder}/{part}"):
            folders[:] = sorted(folders) if deep else []
            for it in sorted(files):
                with open(f"{at}/{it}", "rb") as text:
                    found.update(it.encode() + text.read())
    return found.hexdigest()


def words_of(crate, room):
    words = ["--crate-name", crate.name, "src/main.rt" if crate.is_program else "src/lib.rt"]
    for name in sorted({"core", *crate.of_kit, *[it for dep in crate.below() for it in dep.of_kit]}):
        words += ["--extern", f"{name}={KIT}/rlibs/{name}.rlib"]
    words += ["-L", f"dependency={KIT}/rlibs"]
    for dep in crate.below():
        uses = dict.fromkeys(["core", *dep.of_kit, *[it.name for it in dep.deps]])
        words += ["--lib", f"{dep.name}:{','.join(uses)}={room}/{dep.name}/src/lib.rt"]
    words += ["--antt-project", f"{KIT}/rattle/logic/antt-project.json", "--logic-built", f"{KIT}/logic_built"]
    return [*words, "--jobs", "1", "--allow-holes", "--incremental", f"{room}/kept"]


def check(words):
    how = {"stdin": subprocess.DEVNULL, "stdout": subprocess.PIPE, "stderr": subprocess.STDOUT}
    return subprocess.run([f"{KIT}/bin/rattle", "check", *words], text=True, errors="replace", **how).stdout


def asked_for(crate, words):
    """All functions of the crate by their paths. A path that the check does not know is left out."""
    paths = ["::".join(it[3]) for it in functions_of(crate.folder)]
    while True:
        said = check([*words, *[word for it in paths for word in ("--only", it)], "--only", "no_function_has_this_name"])
        unknown = {*re.findall(r"has no function `([^`]*)`", said)}
        left = [it for it in paths if it not in unknown]
        if len(left) == len(paths):
            return left
        paths = left


def what_is_open(name, room, said):
    """The lines that speak of the crate, without those of the stubs' holes."""
    lines, shown, okay, at = said.split("\n"), [], 0, 0
    while at < len(lines):
        line, at = lines[at], at + 1
        if line.startswith(f"{room}/") and ("unreachable-requires" in line or "has-holes" in line):
            while at < len(lines) and lines[at].startswith((" ", "\t")):
                at += 1
            continue
        told = re.match(r"fn (\S+): (.*)", line)
        if told:
            holes = re.findall(r"`([^`]*)`", told[2]) if told[2].startswith("depends on a hole") else None
            is_own = told[1].split("::")[0] == name
            is_well = told[2] in ("no holes", "proved") or holes is not None and not any(it.startswith(f"Rattle.{name}.") for it in holes)
            okay += is_own and is_well
            if is_well:
                continue
        elif re.match(r"(struct|enum|impl|trait) \S+: (proved|no holes)|statements |help:|note: to see them|logic |note: no hole is left|so far:", line):
            continue
        shown.append(line[:600])
    return shown, okay


def main():
    parser = argparse.ArgumentParser(description=__doc__, formatter_class=argparse.RawDescriptionHelpFormatter)
    parser.add_argument("crate", metavar="CRATE")
    parser.add_argument("--only", metavar="PATH", action="append", default=[], help="this function (may be given several times)")
    parser.add_argument("--room", metavar="DIR", default=f"{tempfile.gettempdir()}/over-stubs", help="where stubs and what was checked are kept")
    parser.add_argument("--raw", action="store_true", help="all that the check says")
    given = parser.parse_args()
    os.chdir(f"{TOP}/crates/{given.crate}")
    crate = kit().Crate(os.getcwd(), TOP, {})
    room = f"{os.path.abspath(given.room)}/{crate.name}"
    os.makedirs(f"{room}/kept", exist_ok=True)
    for dep in crate.below():
        stamp, file = stamp_of(dep.folder), f"{room}/{dep.name}.stamp"
        if not os.path.isfile(file) or open(file, encoding="utf-8").read() != stamp:
            stub(dep, f"{room}/{dep.name}")
            with open(file, "w", encoding="utf-8") as it:
                it.write(stamp)
    words = words_of(crate, room)
    said = check([*words, *[word for it in given.only or asked_for(crate, words) for word in ("--only", it)]])
    shown, okay = what_is_open(crate.name, room, said)
    print(said if given.raw else "\n".join(shown))
    is_open = re.search(rf"(?m)^fn {crate.name}::\S+: (no proof|not proved|could not tell)|error[\[:]|^rattle: error", said)
    print(f"{okay} functions of {crate.name} have nothing open but what stands above")
    return 1 if is_open else 0


if __name__ == "__main__":
    sys.exit(main())
