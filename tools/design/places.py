#!/usr/bin/env python3
"""Counts the places of docs/DESIGN-PASS.md's points in crates/*/src (and of its last point in proofs/): places.py [--list] [COMMIT].

Without a commit the files of the working copy are read. --list prints each place.
"""
import collections
import os
import re
import subprocess
import sys

ROOT = os.path.dirname(os.path.dirname(os.path.dirname(os.path.abspath(__file__))))


def git(*args):
    return subprocess.run(["git", "-C", ROOT, *args], capture_output=True, text=True, check=True).stdout


def names_of(commit):
    if commit:
        return git("ls-tree", "-r", "--name-only", commit, "crates").split()
    return git("ls-files", "--cached", "--others", "--exclude-standard", "crates").split()


def text_of(commit, name):
    if commit:
        return git("show", f"{commit}:{name}")
    with open(os.path.join(ROOT, name), encoding="utf-8") as f:
        return f.read()


def sources(commit):
    return {n: text_of(commit, n) for n in names_of(commit) if re.search(r"/src/.*\.rt$", n) and (commit or os.path.exists(os.path.join(ROOT, n)))}


def bare(text):
    """The text without comments."""
    return re.sub(r"//[^\n]*", "", text)


def functions(text):
    """Name, header and body of each function."""
    for m in re.finditer(r"^[ \t]*(?:pub(?:\(crate\))? )?(?:const )?(?:extern \"C\" )?fn (\w+)", text, re.M):
        opening = re.compile(r"^[ \t]*\{\n|\{\n", re.M)
        at = m.end()
        depth = 0
        # the body's bracket is the first that stands at the end of its line outside a clause
        while True:
            b = opening.search(text, at)
            if not b:
                break
            line = text[text.rfind("\n", 0, b.start()) + 1:b.end()]
            if re.match(r"\s*(ensures|requires)", line):
                at = b.end()
                continue
            start = text.index("{", b.start())
            depth, i = 0, start
            while i < len(text):
                if text[i] == "{":
                    depth += 1
                elif text[i] == "}":
                    depth -= 1
                    if depth == 0:
                        break
                i += 1
            yield m.group(1), text[m.start():start], text[start:i + 1]
            break


def own_enums(files):
    """1: enums of the shape of Option or Result: two variants, one of them bare, or a variant that holds a refusal."""
    found = []
    for name, text in files.items():
        for m in re.finditer(r"enum (\w+) \{(.*?)\n\}", bare(text), re.S):
            variants = re.findall(r"^    (\w+)(.*?)(?=^    \w|\Z)", m.group(2) + "\n", re.M | re.S)
            plain = [v for v, rest in variants if rest.strip() in (",", "")]
            if (len(variants) == 2 and len(plain) == 1) or (m.group(1) != "Refusal" and "(Refusal)" in m.group(2)):
                found.append((name, m.group(1)))
    return found


def numbers(files):
    """1: constants that number kinds: three or more in a row in one file, each one more than the last; and an enum's places as constants."""
    found = []
    for name, text in files.items():
        found += [(name, c) for c in re.findall(r"const (\w+): usize = \w+::\w+ as usize;", bare(text))]
        run = []
        for m in re.finditer(r"const (\w+): (?:usize|u8|u16|u32) = (\d+);|(\n(?:pub )?(?:fn|enum|struct|use) )", bare(text) + "\nfn "):
            if m.group(3):
                if len(run) >= 3:
                    found += [(name, c) for c, _ in run]
                run = []
                continue
            n = int(m.group(2))
            if run and n == run[-1][1] + 1:
                run.append((m.group(1), n))
            else:
                if len(run) >= 3:
                    found += [(name, c) for c, _ in run]
                run = [(m.group(1), n)]
    return found


def flags(files):
    """1: a flag lent beside a value."""
    return [(name, fn) for name, text in files.items() for fn, head, _ in functions(text) if re.search(r"\w+: &mut (u8|bool)\b", head)]


def by_number(files):
    """1: functions that take an operator, a kind, a sort, a code or flags as a number."""
    return [(name, fn) for name, text in files.items() for fn, head, _ in functions(bare(text))
            if re.search(r"\b(op|kind|sort|code|flags|inner): (usize|u8)", head)]


def twins(files):
    """2: functions whose bodies differ at most in numbers, types and names of one word."""
    groups = collections.defaultdict(list)
    for name, text in files.items():
        for fn, head, body in functions(bare(text)):
            params = re.findall(r"(\w+): ", head)
            shape = re.sub(r"\s+", " ", body)
            for i, p in enumerate(dict.fromkeys(params)):
                shape = re.sub(rf"\b{p}\b", f"#{i}", shape)
            shape = re.sub(r"\b[A-Z]\w*\b|\b\d+\b|b'[^']*'|b\"[^\"]*\"", "_", shape)
            if len(shape) > 12:
                groups[shape].append((name, fn))
    found = []
    for shape, places in groups.items():
        if len(places) > 1:
            found += places
    return found


def loops(files):
    """3: loops that count by hand."""
    return [(name, fn) for name, text in files.items() for fn, _, body in functions(bare(text)) for _ in re.findall(r"\bwhile\b|\bloop\b", body)]


def by_hand(files):
    """4: equality, order, copying, conversion and choosing the lesser by hand."""
    names = r"wide\w*|least|number|number_of|code|is|is_same|unequal|compare_letters|copy|and|within|all_are|signed_of|low|to_truth|magnitude|negative"
    found = [(name, fn) for name, text in files.items() for fn, _, _ in functions(text) if re.fullmatch(names, fn)]
    return found + [(name, "Ordering") for name, text in files.items() if re.search(r"enum Ordering", text)]


def travelling(files):
    """5: functions with six parameters or more."""
    return [(name, fn) for name, text in files.items() for fn, head, _ in functions(bare(text))
            if len(re.findall(r"\b\w+: ", re.sub(r"ensures.*|requires.*", "", head, flags=re.S))) >= 6]


def buffers(files):
    """6: an array with its length beside it, in a struct; tables that are searched by hand; arrays handed down whole as tables."""
    found = []
    for name, text in files.items():
        for m in re.finditer(r"struct (\w+) \{(.*?)\n\}", bare(text), re.S):
            if re.search(r": \[", m.group(2)) and re.search(r"\blen\b", m.group(2)):
                found.append((name, m.group(1)))
        for m in re.finditer(r"const (\w+): \[u8; \d+\]", text):
            found.append((name, m.group(1)))
        found += [(name, fn) for fn, head, _ in functions(bare(text)) if re.search(r"words: &\[u8; 256\]|table: &\[u8", head)]
    return found


def switches(files):
    """7: functions that only choose which function to call: a match of three arms or more, each a call."""
    found = []
    for name, text in files.items():
        for fn, _, body in functions(bare(text)):
            m = re.fullmatch(r"\{\s*match \w+ \{(.*)\}\s*\}", body, re.S)
            if m:
                arms = [a for a in re.findall(r"=>\s*(.*?)(?:,\n|\n\s*\}|$)", m.group(1), re.S) if a.strip()]
                if len(arms) >= 3 and sum(1 for a in arms if re.match(r"\{?\s*\w+(::\w+)*\(", a)) * 4 >= len(arms) * 3:
                    found.append((name, fn))
    return found


def answers(commit):
    """8: answers in proof files."""
    found = []
    for n in names_of(commit):
        if n.endswith("/Answers.antt") and (commit or os.path.exists(os.path.join(ROOT, n))):
            found += [(n, a) for a in re.findall(r"^pub (\S+) : goal\.", text_of(commit, n), re.M)]
    return found


def main():
    args = [a for a in sys.argv[1:] if a != "--list"]
    commit = args[0] if args else None
    files = sources(commit)
    for label, found in [
        ("1 enums like Option or Result", own_enums(files)),
        ("1 constants that number kinds", numbers(files)),
        ("1 flags lent beside a value", flags(files)),
        ("1 functions by number", by_number(files)),
        ("2 twins", twins(files)),
        ("3 loops by hand", loops(files)),
        ("4 by hand", by_hand(files)),
        ("5 six parameters or more", travelling(files)),
        ("6 buffers and tables", buffers(files)),
        ("7 switches", switches(files)),
        ("8 answers", answers(commit)),
    ]:
        print(f"{label}: {len(found)}")
        if "--list" in sys.argv and not label.startswith("8"):
            for name, what in sorted(found):
                print(f"    {name[len('crates/'):]} {what}")


if __name__ == "__main__":
    main()
