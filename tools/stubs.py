#!/usr/bin/env python3
"""Builds the libraries below a crate with bodies that prove nothing, so that the crate is checked over their true contracts before they are proved.

    tools/stubs.py make CLONE CRATE [--proved FOLDER]   makes CLONE, in which all libraries that CRATE stands on are built so; those that are proved in a FOLDER of
                                                        `tools/libraries.py prove`, with all below them, are handed over as they are
    tools/stubs.py again CLONE CRATE..                  takes the text of these lower crates from this repository anew, and builds them so, and those above them

Then `cd CLONE/crates/CRATE && RT_ALLOW_C=1 rt check` checks the crate; without RT_ALLOW_C=1 `rt` builds the crate `stubbed` anew, and fails. What is committed at
the top is taken. CLONE.lanes beside CLONE keeps what the builds need: `git clone CLONE OTHER` and `tools/libraries.py hand CLONE.lanes OTHER` make a further clone,
for a check beside the first.

Nothing that is proved there is a verdict: each function below calls one that ensures ⊥, and that is taken as written. So the clone's commits never go back, nor do
its libraries: what is written for CRATE there goes back as the files of its folder, and is proved again over the libraries themselves. The verdict is `rt ci`.
"""
import os
import re
import shutil
import subprocess
import sys

import kit
import libraries

TOP = os.path.dirname(os.path.dirname(os.path.realpath(__file__)))
STUBBED = {
    "src/lib.rt": """//! What the functions of a library call that is built with bodies that prove nothing.
#![tactic(auto)]

unsafe extern "C" {
    safe fn stubbed_away()
        ensures never { ⊥ };
}

/// Never returns.
pub fn stubbed()
    ensures never { ⊥ }
{
    stubbed_away()
}
""",
    "c/stubbed.c": "void stubbed_away(void) { for (;;) {} }\n",
}
HEAD = re.compile(r"^([ \t]*)(?:pub(?:\([^)]*\))? )?(?:const )?(?:unsafe )?fn ([a-z_]\w*)", re.M)
BLOCK = re.compile(r"^(?:pub(?:\([^)]*\))? )?(?:unsafe )?(?:impl|trait)\b[^{]*\{", re.M)
ABOVE = re.compile(r"(?:^[ \t]*(?://|#\[)[^\n]*\n)*\Z", re.M)
CLAUSE = re.compile(r"(?:requires|ensures|decreases|ghost)\*?(?:\s+[\w-]+)?(?:\s*:)?\s*\Z")
TACTIC = re.compile(r"^[ \t]*#\[tactic\(.*\n|(?<=^#!\[tactic\(auto), using\(.*\)(?=\)\]$)", re.M)
UNREAD = re.compile(r"""//[^\n]*|/\*.*?\*/|b?"(?:\\.|[^"\\])*"|b?'(?:\\.[^']*|[^\\'])'""", re.S)
IMPORT = re.compile(r"^use ((?:crate|super|self)(?:::\w+)*)::(\{[^{}]*\}|\w+(?: as \w+)?);\n", re.M)
LEMMAS = re.compile(r"(?:Rattle\.(\w+)\.|crate::)proofs(?:\.|::)(\w+)")


def read(path):
    with open(path, encoding="utf-8") as it:
        return it.read()


def write(path, text):
    os.makedirs(os.path.dirname(path), exist_ok=True)
    with open(path, "w", encoding="utf-8") as it:
        it.write(text)


def files_of(folder, *ends):
    return sorted(f"{at}/{it}" for at, _, names in os.walk(folder) for it in names if it.endswith(ends))


def git(clone, *words):
    ran = subprocess.run(["git", "-C", clone, "-c", "user.name=stubs", "-c", "user.email=stubs", *words], check=True, stdout=subprocess.PIPE, text=True)
    return ran.stdout.strip()


def matched(text, at, is_clause=False):
    """Past the bracket that matches the one at this place."""
    depth = 0
    while True:
        unread = None if is_clause else UNREAD.match(text, at)
        if unread:
            at = unread.end()
            continue
        depth += (text[at] in "{([") - (text[at] in "})]")
        at += 1
        if depth == 0:
            return at


def body_of(text, at):
    """Where the body of the function with this name begins and ends. One that has none ends behind its semicolon, and its body begins nowhere."""
    since = at
    while True:
        unread = UNREAD.match(text, at)
        if unread:
            at = unread.end()
        elif text[at] == ";":
            return None, at + 1
        elif text[at] in "([":
            at = matched(text, at)
        elif text[at] != "{":
            at += 1
        elif CLAUSE.search(text[since:at]):
            since = at = matched(text, at, is_clause=True)
        else:
            return at, matched(text, at)


def is_named(text, head, exported):
    """Whether another crate can name a function: one that is exported, that of a trait, or a public one of a type that is exported."""
    if not head[1]:
        return head[2] in exported
    block = BLOCK.findall(text, 0, head.start())[-1]
    of_trait = " for " in block or not block.startswith("impl")
    return of_trait or "pub " in head[0] and not exported.isdisjoint(re.findall(r"\w+", block))


def stubbed(text, exported):
    """The text with bodies that prove nothing, without its tests and the functions that no other crate can name; and the names of these that an import may have."""
    # tactics name lemmas of the proofs
    text = TACTIC.sub("", text.partition("#[cfg(test)]\nmod tests {")[0])
    parts, at, gone = [], 0, set()
    while head := HEAD.search(text, at):
        begin, end = body_of(text, head.end())
        above = ABOVE.search(text, at, head.start())
        parts.append(text[at:above.start()])
        if begin is None:
            parts.append(text[above.start():end])
        elif is_named(text, head, exported):
            parts.append(f"{text[above.start():begin]}{{\n{head[1]}    stubbed::stubbed();\n{head[1]}    unreachable!()\n{head[1]}}}")
        elif not head[1]:
            gone.add(head[2])
        at = end
    return "".join(parts) + text[at:], gone


def without_imports(text, gone):
    """The text without imports of the functions that are gone, by their module."""
    def left_of(found):
        dead, listed = gone.get(found[1].split("::")[-1], ()), re.findall(r"[^{},\s][^{},]*", found[2])
        left = [it.strip() for it in listed if it.split()[0] not in dead]
        return found[0] if len(left) == len(listed) else f"use {found[1]}::{{{', '.join(left)}}};\n" if left else ""

    return IMPORT.sub(left_of, text)


def stub_sources(folder):
    """Puts stubs into the sources of a library."""
    exported = set(re.findall(r"\w+", " ".join(re.findall(r"pub (?:use|fn) ([^;(]*)", read(f"{folder}/src/lib.rt")))))
    texts, gone = {}, {}
    for file in files_of(f"{folder}/src", ".rt"):
        texts[file], gone[os.path.basename(file)[:-3]] = stubbed(read(file), exported)
    for file, text in texts.items():
        write(file, text if file.endswith("/lib.rt") else without_imports(text, gone))


def drop_proofs(crates, names):
    """Removes the proofs of functions, and the lemma files that nothing else names any more."""
    lemmas, cited = {}, set()
    for name in names:
        base = f"{crates}/{name}/proofs"
        for it in os.listdir(base) if os.path.isdir(base) else ():
            if os.path.isdir(f"{base}/{it}"):
                shutil.rmtree(f"{base}/{it}")
            elif it != "Lib.antt":
                lemmas[name, it.removesuffix(".antt")] = f"{base}/{it}"

    def cite(name, file):
        for of, lemma in LEMMAS.findall(read(file)):
            if lemmas.get((of or name, lemma)) and (of or name, lemma) not in cited:
                cited.add((of or name, lemma))
                cite(of or name, lemmas[of or name, lemma])

    for name in os.listdir(crates):
        for part in ("src", "specs", "proofs"):
            for file in files_of(f"{crates}/{name}/{part}", ".rt", ".antt"):
                if file not in lemmas.values():
                    cite(name, file)
    for name, lemma in lemmas.keys() - cited:
        os.remove(lemmas[name, lemma])
        lib = f"{crates}/{name}/proofs/Lib.antt"
        write(lib, re.sub(rf"(?m)^(?:pub )?mod {lemma}\n", "", read(lib)))


def stub(clone, names):
    """Takes the committed text of these crates from this repository, and commits it to the clone with stubs."""
    git(clone, "fetch", "-q", TOP, "HEAD")
    git(clone, "restore", "-SW", "-s", "FETCH_HEAD", *(f"crates/{it}" for it in names))
    for name in names:
        stub_sources(f"{clone}/crates/{name}")
    drop_proofs(f"{clone}/crates", names)
    here = {line.partition(":")[0]: line for line in git(clone, "show", "FETCH_HEAD:crates.txt").splitlines()}
    lines = read(f"{clone}/crates.txt").splitlines()
    lines = [here[it].replace(":", ": stubbed", 1) if (it := line.partition(":")[0]) in names else line for line in lines]
    write(f"{clone}/crates.txt", "\n".join(lines) + "\n")
    git(clone, "add", "crates.txt", *(f"crates/{it}" for it in ("stubbed", *names)))
    git(clone, "commit", "-q", "-m", f"Stubs, never to go back: {' '.join(names)}", "--allow-empty")


def below(top, name):
    """The libraries that a crate stands on."""
    named, deps = kit.named_in(top), kit.libraries_of(top)
    found = [it for it in named[name] if it in deps]
    for it in found:
        found += [dep for dep in deps[it] if dep not in found]
    return found


def build(clone):
    """Builds the libraries that the clone's crate stands on, side by side, and hands them to the clone."""
    os.environ["RT_ALLOW_C"] = "1"
    names = below(clone, git(clone, "config", "stubs.crate"))
    lanes = libraries.Lanes(f"{clone}.lanes", os.cpu_count(), clone, names)
    for it in names:
        kit.hand_library(clone, lanes.proved, it)
    lanes.word = "ready"
    is_whole = lanes.run()
    for it in names:
        kit.hand_library(lanes.proved, clone, it)
    sys.exit(not is_whole)


def proved_in(folder, clone, name):
    """Hands a clone the libraries below a crate that are proved in a folder, and names those that have the clone's text, as all below them have."""
    for it in below(clone, name):
        kit.hand_library(f"{folder}/proved", clone, it)
    rt = kit.script("rt")
    os.chdir(clone)
    return kit.usable(rt.rtlib.Crate(f"{clone}/crates/{name}", clone, {}).below())


def make(clone, name, folder=None):
    """Makes a clone with stubs below a crate."""
    if os.path.lexists(clone) or os.path.lexists(f"{clone}.lanes") or os.path.realpath(clone).startswith(f"{TOP}/"):
        sys.exit(f"{clone} or {clone}.lanes is there, or in this repository")
    if name not in kit.named_in(TOP):
        sys.exit(f"{name} isn't in crates.txt")
    subprocess.run(["git", "clone", "-q", TOP, clone], check=True)
    git(clone, "remote", "remove", "origin")
    git(clone, "config", "stubs.crate", name)
    proved = proved_in(folder, clone, name) if folder else set()
    for path, text in STUBBED.items():
        write(f"{clone}/crates/stubbed/{path}", text)
    write(f"{clone}/crates.txt", "stubbed:\n" + read(f"{clone}/crates.txt"))
    names = [it for it in below(clone, name) if it not in proved]
    if names:
        stub(clone, names)
    build(clone)


def again(clone, names):
    """Puts the present text of some crates into a clone with stubs. What was proved over them isn't any more, and gets stubs as well."""
    crate = git(clone, "config", "--default", "", "stubs.crate")
    there = below(clone, crate) if crate else []
    if not {*names} <= {*there} - {"stubbed"}:
        sys.exit(f"{clone} isn't made by tools/stubs.py for a crate that stands on {' and '.join(names)}")
    named = kit.named_in(clone)
    over = [it for it in there if not {*names}.isdisjoint(below(clone, it)) and "stubbed" not in named[it]]
    stub(clone, list(dict.fromkeys([*names, *over])))
    build(clone)


def main(verb="", clone="", *words):
    clone = os.path.abspath(clone)
    if verb == "make" and (len(words) == 1 or len(words) == 3 and words[1] == "--proved"):
        make(clone, words[0], *map(os.path.abspath, words[2:]))
    elif verb == "again" and words:
        again(clone, words)
    else:
        sys.exit(__doc__)


if __name__ == "__main__":
    main(*sys.argv[1:])
