#!/usr/bin/env python3
"""Finds what `simplex` does not re-export: a definition that a clause of one of its public calls names, and a law of any crate.

It reads the text alone: which items crates/simplex/src re-exports, where each is declared, which names its clauses and ghost members
use, and from which file of specs/ these come. Definitions of std and of the kit's crates, and types (`specs.declared`), come by
themselves. A law is a public function without parameters; cases that are computed are none. With --list it prints which calls
name each file of definitions."""
import pathlib
import re
import sys

ROOT = pathlib.Path(__file__).resolve().parent.parent
CRATES = ROOT / "crates"
OURS = {path.name for path in CRATES.iterdir() if (path / "src").is_dir()}
# Files whose functions are computed cases, and no laws; and a crate that has nothing else.
CASES = {"samples.rt", "resolving.rt"}
CASE_CRATE = "law_samples"
WORD = re.compile(r"[A-Za-z_][\w'-]*")


def balanced(text, start, opening, closing):
    """The place behind the bracket that closes the one at `start`."""
    depth = 0
    for at in range(start, len(text)):
        if text[at] == opening:
            depth += 1
        elif text[at] == closing:
            depth -= 1
            if depth == 0:
                return at + 1
    return len(text)


def bare(text):
    """The text without comments and attributes."""
    text = re.sub(r"//[^\n]*", "", text)
    return re.sub(r"#!?\[[^\n]*\]\n", "\n", text)


def parts(names):
    """The items of a list in braces, which may have braces of its own."""
    found, depth, word = [], 0, ""
    for letter in names + ",":
        if letter == "," and depth == 0:
            if word.strip():
                found.append(word.strip())
            word = ""
            continue
        depth += {"{": 1, "}": -1}.get(letter, 0)
        word += letter
    return found


def uses(text):
    """The paths that `pub use` lines re-export, each with the name under which."""
    found = []
    for match in re.finditer(r"\bpub use ([^;]+);", text):
        line = " ".join(match.group(1).split())
        head, brace, rest = line.partition("::{")
        for name in parts(rest.rstrip("}")) if brace else [""]:
            path = head + ("::" + name if name else "")
            path, _, shown = path.partition(" as ")
            found.append((path.strip(), (shown or path.split("::")[-1]).strip()))
    return found


def root_of(crate):
    return CRATES / crate / "src" / "lib.rt"


def module_file(crate, path):
    """The file of a module, by its path below the crate."""
    base = CRATES / crate / "src"
    if not path:
        return root_of(crate)
    for file in (base.joinpath(*path).with_suffix(".rt"), base.joinpath(*path, "mod.rt")):
        if file.exists():
            return file
    return None


def handed_on(crate, path=()):
    """The items that a module re-exports, each as its crate, its file and its name."""
    file = module_file(crate, list(path))
    if file is None:
        return set()
    text = bare(file.read_text())
    found = set()
    for name in re.findall(r"\bpub mod (\w+);", text):
        found |= handed_on(crate, (*path, name))
    for used, _ in uses(text):
        found |= resolved(crate, path, used)
    for name in re.findall(r"^pub (?:const )?(?:unsafe )?(?:fn|struct|enum|trait|const|static|type) (\w+)", text, re.M):
        found.add((crate, file, name))
    return found


def resolved(crate, path, used):
    """The items that a path leads to, seen from a module of the crate."""
    words = used.split("::")
    if words[0] in OURS and words[0] != crate:
        crate, path, words = words[0], (), words[1:]
    elif words[0] == "crate":
        path, words = (), words[1:]
    elif words[0] == "self":
        words = words[1:]
    elif words[0] in ("std", "core"):
        return set()
    if not words:
        return handed_on(crate)
    if module_file(crate, [*path, words[0]]) and (len(words) > 1 or not declared(crate, path, words[0])):
        inner = (*path, words[0])
        if len(words) == 1:
            return handed_on(crate, inner)
        return resolved(crate, inner, "self::" + "::".join(words[1:]))
    return declared(crate, path, words[0])


def declared(crate, path, name):
    """Where the item of this name is declared that the module declares or re-exports."""
    file = module_file(crate, list(path))
    if file is None:
        return set()
    text = bare(file.read_text())
    if re.search(rf"\b(?:fn|struct|enum|trait|const|static|type) {name}\b", text):
        return {(crate, file, name)}
    for used, shown in uses(text):
        if shown == name and used.split("::")[-1] != "self":
            if used.split("::") == [name]:
                continue
            return resolved(crate, path, used)
    return set()


def clauses(text):
    """The text of all clauses and ghost members."""
    found = []
    for match in re.finditer(r"\b(?:requires|ensures)\*?(?: \w+)? \{|\bghost \w+(?: :|:| =) \{", text):
        brace = text.index("{", match.start())
        end = balanced(text, brace, "{", "}")
        found.append(text[brace:end])
        again = re.match(r"\s*=\s*\{", text[end:])
        if again:
            second = text.index("{", end)
            found.append(text[second:balanced(text, second, "{", "}")])
    return "\n".join(found)


def blocks(text, name):
    """The declarations of an item, and of a type or a trait the public text of its `impl` blocks."""
    found = []
    for match in re.finditer(rf"^pub (?:const )?(?:unsafe )?fn {name}\b", text, re.M):
        found.append(text[match.start():head_end(text, match.start())])
    for match in re.finditer(rf"^pub (?:struct|enum|trait) {name}\b", text, re.M):
        stop = text.find(";", match.start())
        brace = text.find("{", match.start())
        if brace != -1 and (stop == -1 or brace < stop):
            found.append(text[match.start():balanced(text, brace, "{", "}")])
    return found


def head_end(text, start):
    """The place at which a function's body begins: the brace that no clause opens."""
    at = start
    while True:
        brace = text.find("{", at)
        stop = text.find(";", at)
        if brace == -1 or (stop != -1 and stop < brace):
            return stop if stop != -1 else len(text)
        before = text[start:brace].rstrip()
        if re.search(r"(?:requires|ensures)\*?(?: \w+)?$|ghost \w+:$", before) or before.endswith(("::", "use")):
            at = balanced(text, brace, "{", "}")
            continue
        return brace


def impls(text, name):
    """Of each `impl` of the type: the heads of its public methods, and all of it where it is of a trait."""
    found = []
    for match in re.finditer(r"^impl\b[^{;]*\{", text, re.M):
        head = " ".join(match.group(0).split())
        of = re.sub(r"<[^<>]*>", "", re.sub(r"<[^<>]*>", "", re.sub(r"<[^<>]*>", "", head)))
        target = re.search(r"\bfor ([\w:]+)", of) or re.match(r"impl ([\w:]+)", of)
        if target is None or target.group(1).split("::")[-1] != name:
            continue
        body = text[match.end() - 1:balanced(text, match.end() - 1, "{", "}")]
        whole = " for " in of
        for method in re.finditer(r"\bfn \w+" if whole else r"\bpub (?:const )?fn \w+", body):
            found.append(body[method.start():head_end(body, method.start())])
        found += re.findall(r"\bghost \w+ = \{[^\n]*", body)
    return found


def imports(text):
    """Where each name of a file's clauses comes from: module by name."""
    found = {}
    for match in re.finditer(r"\bghost use (Rattle\.[\w.]+)(?:\.\{([^}]*)\}| as (\w+))?;", text):
        module, names, alias = match.groups()
        if alias:
            found[alias] = module
        for name in (names or "").split(","):
            real, _, shown = name.strip().partition(" as ")
            if real:
                found[shown or real] = module
    return found


def named(crate, file, name):
    """The modules of definitions that the clauses of an item name."""
    texts = [bare(file.read_text())]
    if not re.search(rf"^pub (?:const )?(?:unsafe )?fn {name}\b", texts[0], re.M):
        texts += [bare(other.read_text()) for other in sorted((CRATES / crate / "src").rglob("*.rt")) if other != file]
    found = set()
    for text in texts:
        pieces = (blocks(text, name) if text is texts[0] else []) + impls(text, name)
        if not pieces:
            continue
        known = imports(text)
        for piece in pieces:
            for word in set(WORD.findall(clauses(piece))):
                module = known.get(word) or known.get(word.split(".")[0])
                if module:
                    found.add(module)
            for sign in re.findall(r"◌[^◌\s,]+◌", piece):
                found.add(known.get(sign, ""))
    return {module for module in found if module.split(".")[1:2] and module.split(".")[1] in OURS and ".declared" not in module}


def laws():
    """The laws that the crates re-export, as their crate and their name."""
    found = set()
    for crate in OURS - {CASE_CRATE, "simplex"}:
        if crate.startswith(("test_", "bench_", "example_")) or not root_of(crate).exists():
            continue
        for owner, file, name in handed_on(crate):
            if owner == crate and file.name not in CASES and re.search(rf"^pub fn {name}\(\)\s", bare(file.read_text()), re.M):
                found.add((crate, name))
    return found


def main():
    lines = "\n".join(file.read_text() for file in sorted((CRATES / "simplex" / "specs").rglob("*.antt")))
    handed = set(re.findall(r"^pub use (Rattle\.[\w.]+)", lines, re.M))
    wanted = {}
    items = handed_on("simplex")
    for crate, file, name in sorted(items, key=str):
        for module in named(crate, file, name):
            wanted.setdefault(module, set()).add(f"{crate}::{name}")
    if "--list" in sys.argv:
        for module in sorted(wanted):
            print(module, *sorted(wanted[module]))
    missing = sorted(set(wanted) - handed)
    for module in missing:
        print(f"reexports: {module} is named by {', '.join(sorted(wanted[module])[:4])}, and crates/simplex/specs does not hand it on")
    lost = sorted(laws() - {(crate, name) for crate, _, name in items})
    for crate, name in lost:
        print(f"reexports: {name} of {crate} is a law, and crates/simplex/src does not hand it on")
    if not missing and not lost:
        print(f"reexports: {len(wanted)} files of definitions are named, and these and all laws are re-exported")
    return bool(missing or lost)


if __name__ == "__main__":
    sys.exit(main())
