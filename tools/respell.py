#!/usr/bin/env python3
"""Spells the repository's own ghost names as the language's library does: definitions, fields and lemmas in snake case, types in
camel case. Run once, at the top of the repository, after the toolchain's own script. Functions of src/, exported names, strings,
inputs and outputs keep their names. A lemma that would take the name of another definition gets `_lem`."""
import collections
import os
import re

NAME = r"[^\s(){}\[\].,;:λ→=|\"`]+"
DECLARED = re.compile(r"^\s*(?:(?:abbrev|unfoldable|pub)\s+)*(" + NAME + r")\s*:(?!:)\s*(.*)")
TYPE = re.compile(r"^\s*(?:(?:abbrev|unfoldable|pub)\s+)*(?:data|record|ruleset)\s+(" + NAME + ")")
ALIAS = re.compile(r"^(?:use|ghost use) .* as (" + NAME + r");?$")
TOKEN = re.compile(NAME)
ANSWER = re.compile(r"tie\.(Need|invariant|decreases)")


def snake(name):
    if name[0].isupper():
        return "".join(part[:1].upper() + part[1:] for part in name.split("-"))
    name = re.sub(r"([a-z0-9])([A-Z])", lambda m: m.group(1) + "_" + m.group(2).lower(), name)
    name = re.sub(r"-([A-Z])", lambda m: "_" + m.group(1).lower(), name)
    return name.replace("-", "_")


def wants(name):
    return "-" in name or (name[0].islower() and re.search("[a-z0-9][A-Z]", name))


def files(ends):
    for folder, dirs, names in os.walk("crates"):
        dirs[:] = sorted(d for d in dirs if d != "out")
        for name in sorted(names):
            if name.endswith(ends):
                yield os.path.join(folder, name)


def declared(path):
    """Names that a file declares, with whether each is an answer to a goal."""
    for line in open(path, encoding="utf-8"):
        if line.lstrip().startswith("--"):
            continue
        found = TYPE.match(line) or DECLARED.match(line)
        if found:
            yield found.group(1), bool(ANSWER.search(line))


def aliases(path):
    """Names that a file gives to modules that it imports."""
    found = (ALIAS.match(line.rstrip()) for line in open(path, encoding="utf-8"))
    return {m.group(1) for m in found if m}


def is_shared(path):
    return path.endswith(".antt") and not path.endswith("Proof.antt")


def renaming(names, together):
    """From old name to new; of two that would fall together in a file, the dashed one gets `_lem`."""
    out, taken = {}, collections.defaultdict(list)
    for name in sorted(names, key=lambda n: ("-" in n, bool(wants(n)), n)):
        new = snake(name) if wants(name) else name
        beside = [other for other in taken[new] if together(name, other)]
        if beside:
            print(f"falls together: {name} and {beside[0]}: {new}_lem")
            new += "_lem"
        taken[new].append(name)
        if new != name:
            out[name] = new
    return out


def turned(text, names):
    def one(m):
        return ".".join(names.get(part, part) for part in m.group(0).split("."))
    # a path's parts are tokens of their own, since a dot ends a name
    return TOKEN.sub(lambda m: names.get(m.group(0), m.group(0)), text)


def quoted(text, names):
    return re.sub(r"`([^`\n]*)`", lambda m: "`" + turned(m.group(1), names) + "`", text)


def antt(text, names):
    out = []
    for line in text.split("\n"):
        code, dash, comment = line.partition("--") if re.search(r"(^|\s)--\s|^\s*--", line) else (line, "", "")
        if dash and line.lstrip().startswith("--"):
            heading = re.match(r"^(--\s{4,})((?:" + NAME + r", )*" + NAME + r")(\s{2,}.*)$", line)
            line = heading.group(1) + turned(heading.group(2), names) + quoted(heading.group(3), names) if heading else quoted(line, names)
        elif dash:
            line = turned(code, names) + dash + quoted(comment, names)
        else:
            line = turned(line, names)
        out.append(line)
    return "\n".join(out)


def rattle(text, names):
    """Ghost imports and clauses; in code a name with a capital inside is never one of the language's functions."""
    out, depth = [], 0
    for line in text.split("\n"):
        bare = line.strip()
        if bare.startswith("//"):
            line = quoted(line, names)
        elif depth or re.match(r"(ghost |requires\b|ensures\b)", bare):
            if bare.startswith("ghost use"):
                line = turned(line, names)
            else:
                line = turned(line, names)
                depth += line.count("{") - line.count("}")
        else:
            line = turned(line, {old: new for old, new in names.items() if "-" not in old and old[0].islower()})
        out.append(line)
    return "\n".join(out)


def main():
    shared = {name for path in files(".antt") if is_shared(path) for name, _ in declared(path)}
    words = [set(TOKEN.findall(open(path, encoding="utf-8").read())) for path in files(".antt")]
    names = renaming(shared, lambda a, b: any(a in w and b in w for w in words))
    for path in files((".antt", ".rt", ".edit")):
        with open(path, encoding="utf-8") as f:
            text = f.read()
        if path.endswith(".antt"):
            local = {name for name in aliases(path) if wants(name) and name not in names}
            if not is_shared(path):
                local |= {name for name, answer in declared(path) if not answer and wants(name) and name not in names}
            mine = {**names, **renaming(local, lambda a, b: True)}
            new = antt(text, mine)
        elif path.endswith(".edit"):
            new = turned(text, {old: n for old, n in names.items() if "-" not in old})
        else:
            new = rattle(text, names)
        if new != text:
            with open(path, "w", encoding="utf-8") as f:
                f.write(new)
    for folder in (".", "docs", "rust", "tools/simh", "tools/far"):
        for name in sorted(os.listdir(folder)):
            if name.endswith(".md") and name not in ("PORT.md",):
                path = os.path.join(folder, name)
                with open(path, encoding="utf-8") as f:
                    text = f.read()
                new = quoted(text, names)
                if new != text:
                    with open(path, "w", encoding="utf-8") as f:
                        f.write(new)


main()
