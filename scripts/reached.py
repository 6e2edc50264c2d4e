#!/usr/bin/env python3
"""Which definitions the clauses of the public call `tdm` reach, by the sources alone, and how many lines they have.

usage: reached.py                 prints the tables of docs/AUDIT.md
       reached.py --check         says where docs/AUDIT.md differs from them, and ends with 1 if it does
       reached.py --write         writes them into docs/AUDIT.md
       reached.py --unreached     prints the definitions of specs/ that no clause of `tdm` reaches
       reached.py --why NAME      prints one way from a clause to each definition of this name

A definition is a `record`, `data`, `abbrev` or `unfoldable` of a file in specs/, or a struct or enum of a file in src/
that these cite. It reaches each name that it mentions, as its file imports or defines it; of a name that it binds
itself nothing is reached, and at a name that is neither the script stops. Lines are counted without comments. This is
no part of the tests, and needs Python's standard library alone.
"""
import re
import sys
from collections import namedtuple
from pathlib import Path

TOP = Path(__file__).resolve().parent.parent
PAGE = TOP / "docs" / "AUDIT.md"
ENTRY = TOP / "crates" / "tdm_cli" / "src" / "tdm.rt"
DESK = TOP / "crates" / "tdm_desk" / "src" / "calls.rt"

# The steps in which the page is read: a title, and the definitions that lead to all of the step. Each step has what
# these reach and no earlier step has; the last has all the rest.
STEPS = [
    ("legality", ["IsLegal", "value_of"]),
    ("bound", ["IsValid", "IsBound", "IsLowerBound"]),
    ("texts", ["board_of", "solution_of", "cert_of", "board_text", "solution_text", "cert_text"]),
    (
        "promises",
        ["IsTight", "IsMinimalTree", "MeetsBaselineRounds", "IsBaselineValue", "IsHopFloor", "IsShareFloor"]
        + ["generated"],
    ),
    ("run", None),
]

# The definitions whose text stands on the page: what `bounds_hold` says.
HEADLINE = ["BoundsHold", "IsLowerBound"]

Definition = namedtuple("Definition", "key name file line lines sentence refs")

IDENTIFIER = r"[A-Za-z_][\w']*"
TYPE = re.compile(r"^(?:pub(?:\(crate\))? )?(?:struct|enum) (\w+)", re.M)
START = re.compile(
    rf"^(\s*)(?:(?:abbrev|unfoldable)\s+(?:pub\s+)?(\S+)\s*:|(?:pub\s+)?(?:record|data)\s+({IDENTIFIER}))"
)
KEYWORDS = set("abbrev data do elim else if in let module pub record then Type unfoldable Unit where".split())
USE = re.compile(r"^\s*(?:pub\s+|ghost\s+)?use\s+(Rattle[\w.]*?)(?:\.\{(.*)\}|\s+as\s+(\w+))?;?\s*$")


def imports_of(text):
    """The names that a file imports, each with the module and the name there, and its names of whole modules."""
    names, modules = {}, {}
    for line in text.splitlines():
        found = USE.match(line)
        if not found:
            continue
        module, listed, alias = found.groups()
        if alias:
            modules[alias] = module
        for item in (listed or "").split(","):
            name, _, other = item.strip().partition(" as ")
            if name:
                names[other.strip() or name] = (module, name)
    return names, modules


def without_comments(line):
    return re.sub(r'"[^"]*"', '""', line.partition("--")[0])


def module_of(path):
    """The module that a file of specs/ is."""
    parts = path.relative_to(TOP / "crates").with_suffix("").parts
    return ".".join(("Rattle", parts[0], "specs") + parts[2:])


def blocks_of(path):
    """Each definition of a file: its name, its first line, its lines, the sentence above it, and the heads of the
    modules around it."""
    lines = path.read_text(encoding="utf-8").splitlines()
    comment, heads, number = [], [], 0
    while number < len(lines):
        line = lines[number]
        depth = len(line) - len(line.lstrip())
        if line.strip() and not line.lstrip().startswith("--"):
            heads = [it for it in heads if it[0] < depth]
        if line.lstrip().startswith("-- "):
            comment.append(line.strip()[3:])
        elif re.match(r"\s*module\s", line):
            while not re.search(r"\bwhere\s*$", line) and number + 1 < len(lines):
                number += 1
                line += " " + lines[number].strip()
            heads.append((depth, line))
            comment = []
        elif START.match(line):
            name = next(it for it in START.match(line).groups()[1:] if it)
            end = number + 1
            while end < len(lines) and lines[end].strip() and not START.match(lines[end]):
                end += 1
            yield name, number + 1, lines[number:end], " ".join(comment), [it[1] for it in heads]
            number, comment = end, []
            continue
        elif not re.match(r"\s*infix", line):
            comment = []
        number += 1


def words_bound(name, lines, is_constructor):
    """The names that a definition binds itself: parameters, variables of lambdas, fields, patterns."""
    bound = set()
    text = "\n".join(lines)
    for group in re.findall(rf"[({{]((?:{IDENTIFIER}\s+)*{IDENTIFIER})\s*:", text):
        bound.update(group.split())
    for group in re.findall(rf"λ\s*((?:{IDENTIFIER}\s+)*{IDENTIFIER})\s*\.", text):
        bound.update(group.split())
    bound.update(re.findall(rf"\blet\s+({IDENTIFIER})\b", text))
    bound.update(re.findall(rf"({IDENTIFIER})\s*←", text))
    fields = set(re.findall(rf"(?:[{{;]\s*|^\s+)({IDENTIFIER})\s*=(?!=)", text, re.M))
    fields.update(re.findall(rf"^\s+(?:pub\s+)?({IDENTIFIER})\s*:", text, re.M))
    for line in lines:
        head = rf"{re.escape(name)}((?:\s+[^=]*)?)" if "◌" not in name else r"(\(.*)"
        left = re.match(rf"^\s*{head}\s=(?:\s|$)", line)
        for word in re.findall(IDENTIFIER + r"(?:\.\w+)?", left[1] if left else ""):
            if not is_constructor(word):
                bound.add(word)
    return bound, fields


class Sources:
    """All definitions of the repository, and what each mentions."""

    def __init__(self):
        self.definitions, self.constructors, self.raw, self.unknown, self.lost = {}, {}, [], {}, set()
        for path in sorted((TOP / "crates").glob("*/specs/**/*.antt")):
            if path.name != "Lib.antt":
                self.add_specs(path)
        for path in sorted((TOP / "crates").glob("*/src/**/*.rt")):
            self.add_types(path)
        for raw in self.raw:
            self.link(*raw)

    def add_specs(self, path):
        module = module_of(path)
        names, modules = imports_of(path.read_text(encoding="utf-8"))
        for name, line, lines, sentence, heads in blocks_of(path):
            key = (module, name)
            if re.match(r"\s*(pub\s+)?data\s", lines[0]):
                for it in re.findall(rf"^\s+({IDENTIFIER})\s*:", "\n".join(lines[1:]), re.M):
                    self.constructors[module, it] = key
            self.raw.append((key, name, path, line, lines, sentence, heads, names, modules))

    def add_types(self, path):
        """Structs and enums of the code, which specs/ imports from a module `declared`."""
        parts = path.relative_to(TOP / "crates").with_suffix("").parts
        crate, inside = parts[0], parts[2:]
        lines = path.read_text(encoding="utf-8").splitlines()
        for at, line in enumerate(lines):
            found = TYPE.match(line)
            if not found:
                continue
            end = at
            while not re.match(r"^(}|.*;\s*$|.*}\s*$)", lines[end]):
                end += 1
            module = ".".join(("Rattle", crate, "specs", "declared") + inside + (found[1],))
            above = []
            for it in reversed(lines[:at]):
                if not it.startswith(("///", "#[")):
                    break
                if it.startswith("/// "):
                    above.insert(0, it[4:])
            sentence = re.split(r"(?<=\.)\s", " ".join(above))[0].rstrip(".")
            body = [it for it in lines[at : end + 1] if not it.strip().startswith(("//", "#["))]
            key = (module, found[1])
            here = {it: (module.rpartition(".")[0] + "." + it, it) for it in TYPE.findall("\n".join(lines))}
            for where, it in re.findall(r"^use crate::([\w:]+)::([A-Z]\w*);", "\n".join(lines), re.M):
                here[it] = (".".join(["Rattle", crate, "specs", "declared", *where.split("::"), it]), it)
            self.raw.append((key, found[1], path, at + 1, body, sentence, [], here, {}))

    def resolve(self, module, name):
        """The key of the definition that this name of a module means, or the module of std that has it."""
        if module.startswith("Rattle.std."):
            return ("std", f"{module[len('Rattle.std.specs.'):]}.{name}")
        if module.endswith(".TheVariants"):
            kind = module[: -len(".TheVariants")]
            return (kind, kind.rpartition(".")[2])
        return self.constructors.get((module, name), (module, name))

    def meaning(self, word, module, names, modules):
        """What a word of a file means, or None where it is none of its imports and definitions."""
        first, _, rest = word.partition(".")
        if first in modules and rest:
            return self.resolve(modules[first], rest.partition(".")[0])
        if first in names:
            return self.resolve(*names[first])
        if (module, first) in self.own:
            return self.resolve(module, first)
        return None

    def link(self, key, name, path, line, lines, sentence, heads, names, modules):
        self.own = {it[0] for it in self.raw} | set(self.constructors)
        module = key[0]
        code = [without_comments(it) for it in lines]
        text = "\n".join(heads + code)

        def is_constructor(word):
            first, _, rest = word.partition(".")
            if first in modules:
                return True
            module_there, there = names.get(first, (module, first))
            is_of_std = first in names and module_there.startswith("Rattle.std.")
            return is_of_std or module_there.endswith(".TheVariants") or (module_there, there) in self.constructors

        bound, fields = words_bound(name, heads + code, is_constructor)
        refs = set()
        for word in re.findall(rf"(?<![\w'.]){IDENTIFIER}(?:\.{IDENTIFIER})*", text):
            meant = self.meaning(word, module, names, modules)
            first = word.partition(".")[0]
            if not meant and path.suffix == ".antt" and first not in bound | fields | KEYWORDS | {name, "_"}:
                self.unknown.setdefault(key, set()).add(first)
            if meant and not (first in bound or first in fields and self.is_field_only(first, code)):
                refs.add(meant)
        for operator, origin in list(names.items()) + [(it[1], it) for it in self.own if it[0] == module]:
            signs = [it for it in operator.split("◌") if it]
            is_used = all(re.search(rf"(?<![\w]){re.escape(it)}(?!\w)", text) for it in signs)
            if "◌" in operator and (is_used or signs == [">>="] and re.search(r"\bdo$", text, re.M)):
                refs.add(self.resolve(*origin))
        count = sum(1 for it in code if it.strip())
        at = path.relative_to(TOP).as_posix()
        self.definitions[key] = Definition(key, name, at, line, count, sentence, refs - {key})

    @staticmethod
    def is_field_only(word, code):
        """Whether each place of this word in a definition is that of a field that is declared or given a value."""
        text = "\n".join(code)
        places = re.findall(rf"(?<![\w'.]){word}(?![\w'])", text)
        declared = re.findall(rf"(?:^\s+(?:pub\s+)?|[{{;]\s*){word}\s*(?::|=)", text, re.M)
        return len(places) == len(declared)

    def reached_from(self, keys):
        """All definitions that these reach, each with the one that it was reached from, and the names of std."""
        come, std, waiting = {it: None for it in keys}, set(), list(keys)
        while waiting:
            at = waiting.pop(0)
            for it in sorted(self.definitions[at].refs):
                if it[0] == "std":
                    std.add(it[1])
                elif it in self.definitions and it not in come:
                    come[it] = at
                    waiting.append(it)
                elif it not in self.definitions:
                    self.lost.add((at, it))
        return come, std


def clauses_of_tdm(sources):
    """The names and texts of the clauses of `tdm`, how many lines they have, and the definitions that each mentions."""
    text = ENTRY.read_text(encoding="utf-8")
    names, modules = imports_of(text)
    body = text[text.index("pub fn tdm<") :]
    body = body[: body.index("\n{\n")]
    body = "\n".join(it.partition("//")[0] for it in body.splitlines())
    clauses = []
    for piece in body.split("    ensures ")[1:]:
        name = piece.split()[0]
        words = re.findall(rf"(?<![\w'.]){IDENTIFIER}", piece)
        bound = set(re.findall(rf"\(({IDENTIFIER}(?:\s+{IDENTIFIER})*)\s*:", piece))
        keys = set()
        for word in words:
            if word in names and word not in bound:
                keys.add(sources.resolve(*names[word]))
        clauses.append((name, sum(1 for it in piece.splitlines() if it.strip()), keys))
    return clauses


def trait_lines():
    """How many lines the trait of desks has without comments, and where it begins."""
    lines = DESK.read_text(encoding="utf-8").splitlines()
    at = next(n for n, it in enumerate(lines) if it.startswith("pub trait Desk"))
    end = lines.index("}", at)
    return sum(1 for it in lines[at : end + 1] if it.strip() and not it.strip().startswith("//")), at + 1


def steps_of(sources, clauses):
    """For each step its definitions in the order of their files; and the names of std that all of them reach."""
    roots = sorted(it for _, _, keys in clauses for it in keys if it[0] != "std")
    whole, std = sources.reached_from(roots)
    std |= {it[1] for _, _, keys in clauses for it in keys if it[0] == "std"}
    taken, steps = set(), []
    for title, leads in STEPS:
        if leads is None:
            mine = set(whole)
        else:
            keys = [it for it in whole if it[1] in leads]
            if {it[1] for it in keys} != set(leads):
                sys.exit(f"reached.py: no clause reaches {sorted(set(leads) - {it[1] for it in keys})}")
            mine = set(sources.reached_from(sorted(keys))[0])
        steps.append((title, order_of([sources.definitions[it] for it in mine - taken])))
        taken |= mine
    return steps, std, whole


def order_of(definitions):
    """Files by how many other files of the step stand below them, fewest first; the definitions of a file in order."""
    file_of = {it.key: it.file for it in definitions}
    below = {it.file: set() for it in definitions}
    for it in definitions:
        below[it.file] |= {file_of[ref] for ref in it.refs if ref in file_of}
    for _ in below:
        for file in below:
            below[file] |= {low for it in below[file] for low in below[it]}
    return sorted(definitions, key=lambda it: (len(below[it.file] - {it.file}), it.file, it.line))


def table_of(definitions):
    """Rows of one step: file by file the definitions, what they say, and their lines."""
    rows, files = ["| definition | what it says | at line | lines |", "|---|---|---|---|"], []
    for it in definitions:
        if it.file not in files:
            files.append(it.file)
            mine = sum(other.lines for other in definitions if other.file == it.file)
            rows.append(f"| **[{it.file[len('crates/') :]}](../{it.file})** | | | {mine} |")
        sentence = it.sentence.replace("|", "\\|") or "(no words of its own)"
        rows.append(f"| `{it.name}` | {sentence} | {it.line} | {it.lines} |")
    return rows


def beside_of(sources, whole):
    """The definitions that are not reached and stand in a file with some that are."""
    files = {sources.definitions[it].file for it in whole}
    rows, names = ["| file | reached by no clause |", "|---|---|"], {}
    for it in sorted(sources.definitions.values(), key=lambda it: (it.file, it.line)):
        if it.key not in whole and it.file in files and "/specs/" in it.file:
            names.setdefault(it.file, []).append(f"`{it.name}`")
    return rows + [f"| {file[len('crates/') :]} | {', '.join(found)} |" for file, found in names.items()]


def headline_of(sources, whole):
    """The text of the definitions that say what the bound is worth."""
    rows = ["```"]
    for name in HEADLINE:
        found = next(sources.definitions[it] for it in whole if it[1] == name)
        lines = (TOP / found.file).read_text(encoding="utf-8").splitlines()[found.line - 1 :]
        rows += lines[: lines.index("") if "" in lines else len(lines)] + [""]
    return rows[:-1] + ["```"]


def sections(sources):
    """The tables of the page by the names of their marks."""
    clauses = clauses_of_tdm(sources)
    steps, std, whole = steps_of(sources, clauses)
    trait, _ = trait_lines()
    counts = [(title, len(found), sum(it.lines for it in found)) for title, found in steps]
    total = ["| part | definitions | lines |", "|---|---|---|"]
    total.append(f"| the clauses of `tdm` | {len(clauses)} clauses | {sum(it[1] for it in clauses)} |")
    total += [f"| {title} | {number} | {lines} |" for title, number, lines in counts]
    total.append(f"| the trait of desks | | {trait} |")
    made = {"counts": total, "headline": headline_of(sources, whole)}
    made.update({title: table_of(found) for title, found in steps})
    made["beside"] = beside_of(sources, whole)
    modules = {}
    for it in std:
        module, _, name = it.rpartition(".")
        modules.setdefault(module, []).append(name)
    made["std"] = ["| module | names |", "|---|---|"]
    for module, names in sorted(modules.items()):
        made["std"].append(f"| `{module}` | {', '.join(f'`{it}`' for it in sorted(names))} |")
    return made


def page_with(made, text):
    """The page with these tables between their marks."""
    for title, rows in made.items():
        begin, end = f"<!-- reached: {title} -->\n", "<!-- end -->"
        if begin not in text:
            sys.exit(f"reached.py: docs/AUDIT.md has no mark for {title}")
        head, _, rest = text.partition(begin)
        text = head + begin + "\n".join(rows) + "\n" + rest[rest.index(end) :]
    return text


def main():
    words, sources = sys.argv[1:], Sources()
    made = sections(sources)
    whole = steps_of(sources, clauses_of_tdm(sources))[2]
    unknown = sorted((it[1], words) for it, words in sources.unknown.items() if it in whole)
    if sources.lost or unknown:
        sys.exit(f"reached.py: not found: {sorted(sources.lost)} {unknown}")
    if not words:
        print("\n\n".join(f"{title}\n" + "\n".join(rows) for title, rows in made.items()))
    elif words == ["--unreached"]:
        for it in sorted(sources.definitions.values(), key=lambda it: (it.file, it.line)):
            if "/specs/" in it.file and it.key not in whole:
                print(f"{it.file}:{it.line}: {it.name}")
    elif words[:1] == ["--why"] and len(words) == 2:
        for key in sorted(it for it in whole if it[1] == words[1]):
            way = [key]
            while whole[way[-1]]:
                way.append(whole[way[-1]])
            print(" <- ".join(it[1] for it in way))
    elif words in (["--check"], ["--write"]):
        text = PAGE.read_text(encoding="utf-8")
        wanted = page_with(made, text)
        if words == ["--write"]:
            PAGE.write_text(wanted, encoding="utf-8")
        elif wanted != text:
            old, new = text.splitlines(), wanted.splitlines()
            for it in [f"- {it}" for it in old if it not in new] + [f"+ {it}" for it in new if it not in old]:
                print(it)
            print("docs/AUDIT.md differs: run scripts/reached.py --write")
            return 1
    else:
        print(__doc__, file=sys.stderr)
        return 2
    return 0


if __name__ == "__main__":
    sys.exit(main())
