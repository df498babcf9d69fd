#!/usr/bin/env python3
"""Compares docs/DEFINITIONS.md with the crates.

The tables of the page's part "The definitions of the headline" have to name what `Headline` rests
on: all of it, and nothing else. On the whole page a name has one row, and stands in a file that the
row links; a fenced text stands in the file that is linked last before it. The status is 1 if one of
these fails.

--count   prints how many definitions the headline rests on
--rows    prints what all public clauses rest on, by crate and file, with the comment above each
"""
import collections
import pathlib
import re
import sys

TOP = pathlib.Path(__file__).resolve().parent.parent
PAGE = TOP / "docs" / "DEFINITIONS.md"
HEADLINE_PART = re.compile(r"^## The definitions of the headline\n(.*?)(?=^## )", re.M | re.S)

CRATE = re.compile(r"^(\w+)[^:\n]*:", re.M)
HEAD = re.compile(
    r"^(?:(?:(?:abbrev|unfoldable|open) )*pub (?!use |mod )(?:(?:record|data) )?"
    r"|(?:  ){1,2}(?:(?:unfoldable )?abbrev pub|pub record) )([A-Za-z_][\w-]*)(?= )",
    re.M,
)
TYPE = re.compile(r"^(?:pub(?:\(crate\))? )?(?:struct|enum) (\w+)", re.M)
IMPORT = re.compile(
    r"^ *(pub )?(?:ghost )?use Rattle\.(\w+)\.specs\.([\w.]+?)(?:\.\{([^}]*)\}| as (\w+))", re.M
)
COMMENT = re.compile(r"^ *--.*", re.M)
# A word behind a point is a field, or a case of a type.
WORD = re.compile(r"(?<![\w.])[A-Za-z_][\w-]*")
LINK = re.compile(r"\]\(\.\./crates/(\w+)/([\w./]+)\)")
QUOTE = re.compile(r"^```\n(.*?)^```$", re.M | re.S)

# A definition, or a type of the code, is known by its crate, its file there and its name.
Key = collections.namedtuple("Key", "crate file name")
Definition = collections.namedtuple("Definition", "comment uses")


def key_of(crate, module, name):
    """What a name of a module is. A case of a type counts as the type, which stands in src/."""
    parts = module.split(".")
    if parts[0] == "declared":
        path = parts[1:-2] if parts[-1] == "TheVariants" else parts[1:-1]
        return Key(crate, f"src/{'/'.join(path) or 'lib'}.rt", parts[len(path) + 1])
    return Key(crate, f"specs/{'/'.join(parts)}.antt", name)


def imports_of(text):
    """What each imported name stands for, and those that are handed on."""
    names, handed_on = {}, {}
    for is_public, crate, module, listed, alias in IMPORT.findall(text):
        for part in filter(None, (it.strip() for it in (listed or alias).split(","))):
            name, _, known = part.partition(" as ")
            names[known.strip() or name] = key_of(crate, module, name)
            if is_public:
                handed_on[name] = key_of(crate, module, name)
    return names, handed_on


def definitions_in(path, crate):
    """The public definitions of a file of specs/, in order: the comment above each (or that of the
    one before), and the names that it uses; and the names that the file hands on."""
    text, file = path.read_text(), f"specs/{path.name}"
    heads = list(HEAD.finditer(text))
    names, handed_on = imports_of(text)
    names |= {it[1]: Key(crate, file, it[1]) for it in heads}
    comment, found = "", {}
    for head, behind in zip(heads, [*heads[1:], None]):
        above = re.search(r"((?:^ *--.*\n)+)\Z", text[: head.start()], re.M)
        if above and above.start():
            comment = " ".join(line.strip()[2:].strip() for line in above[1].splitlines())
        body = COMMENT.sub("", text[head.start() : behind and behind.start()])
        uses = {names[word] for word in WORD.findall(body) if word in names}
        found.setdefault(names[head[1]], Definition(comment, uses))
    return found, {Key(crate, file, name): key for name, key in handed_on.items()}


def read_crates():
    """All definitions and types, in the order of the crates; and the names that are handed on."""
    known, handed_on = {}, {}
    for crate in CRATE.findall((TOP / "crates.txt").read_text()):
        top = TOP / "crates" / crate
        for path in sorted((top / "specs").glob("*.antt")):
            found, handed = definitions_in(path, crate)
            known |= found
            handed_on |= handed
        for path in sorted((top / "src").rglob("*.rt")):
            for name in TYPE.findall(path.read_text()):
                known[Key(crate, str(path.relative_to(top)), name)] = Definition("", set())
    return known, handed_on


def below(roots, known, handed_on):
    """What these rest on, with themselves."""
    todo, rests = [*roots], set()
    while todo:
        key = todo.pop()
        if key in handed_on:
            todo.append(handed_on[key])
        elif key in known and key not in rests:
            rests.add(key)
            todo += known[key].uses
    return rests


def public_clauses(crate):
    """For each file of a library: its text, and the words of its public functions' and traits'
    clauses."""
    root = (crate / "src/lib.rt").read_text()
    handed_on = set(WORD.findall(" ".join(re.findall(r"^pub use [^;]*;", root, re.M))))
    for path in sorted((crate / "src").rglob("*.rt")):
        text = path.read_text().split("#[cfg(test)]\nmod tests {")[0]
        is_handed_on = f"\npub mod {path.stem};" in root
        owner, is_trait, is_public, in_clause, clauses = "", False, False, False, []
        for line in text.splitlines():
            if head := re.match(r"(pub )?(impl|trait)\b.*?(\w+)(?:<[^{]*>)? \{", line):
                owner, is_trait = head[3], head[2] == "trait"
            elif line == "}":
                owner, is_trait = "", False
            if head := re.match(r"\s*(pub )?fn (\w+)", line):
                is_reached = is_handed_on or (owner or head[2]) in handed_on
                is_public = is_trait or bool(head[1]) and is_reached
                in_clause = False
            if re.match(r"\s*(requires|ensures)\b", line):
                in_clause = is_public or is_trait
            elif is_trait and re.match(r"\s*ghost \w+:", line):
                in_clause = True
            elif re.match(r"\s*\{", line):
                in_clause = False
            clauses += [line] * in_clause
        yield text, WORD.findall(" ".join(clauses))


def named_in_clauses():
    """What public clauses name."""
    for root in sorted((TOP / "crates").glob("*/src/lib.rt")):
        for text, words in public_clauses(root.parent.parent):
            names, _ = imports_of(text)
            yield from (names[word] for word in words if word in names)


def named_on(page):
    """The names in the first cells of the rows, each with what it may stand for by their links."""
    for line in page.splitlines():
        if line.startswith("| `"):
            cells = line.strip("| ").split(" | ")
            for name in re.findall(r"`([^`]+)`", cells[0]):
                yield name, {Key(*link, name) for link in LINK.findall(cells[-1])}


def faults_of(page, known, rests):
    """What is wrong with the page, where the headline rests on these."""
    for name, meant in named_on(page):
        if not meant & known.keys():
            yield f"{name} is in no file that its row links"
    rows = collections.Counter(key for _, meant in named_on(page) for key in meant & known.keys())
    yield from (f"{key.name} has {count} rows" for key, count in rows.items() if count > 1)
    part = HEADLINE_PART.search(page)
    has = set().union(*(meant & known.keys() for _, meant in named_on(part[1] if part else "")))
    for key in filter(rests.__contains__, known):
        if key not in has:
            yield f"{key.name} of {key.crate}/{key.file} is missing"
    yield from (f"the headline does not rest on {key.name}" for key in sorted(has - rests))
    for crate, file in sorted(set(LINK.findall(page))):
        if not (TOP / "crates" / crate / file).exists():
            yield f"crates/{crate}/{file} is linked, and is not there"
    for quote in QUOTE.finditer(page):
        crate, file = LINK.findall(page[: quote.start()])[-1]
        if quote[1] not in (TOP / "crates" / crate / file).read_text():
            yield f"what is quoted from {crate}/{file} does not stand there"


def link_to(key):
    """The place of a definition, as the page links it."""
    return f"[{key.crate} {pathlib.Path(key.file).stem}](../crates/{key.crate}/{key.file})"


def print_rows(known, keys):
    """Rows for these definitions, by crate; those that share a comment share a row."""
    rows = collections.OrderedDict()
    for key in known:
        if key in keys and key.file.startswith("specs/"):
            rows.setdefault((key.crate, link_to(key), known[key].comment), []).append(key.name)
    crate_before = ""
    for (crate, link, comment), names in rows.items():
        if crate != crate_before:
            print(f"\n### {crate}\n\n| name | what it says | where |\n|---|---|---|")
        crate_before = crate
        print(f"| {', '.join(f'`{name}`' for name in names)} | {comment} | {link} |")


def print_count(rests):
    """How many definitions and types these are."""
    definitions = [key for key in rests if key.file.startswith("specs/")]
    files = {(key.crate, key.file) for key in definitions}
    crates = {key.crate for key in definitions}
    print(
        f"the headline rests on {len(definitions)} definitions, in {len(files)} files of"
        f" {len(crates)} crates, and on {len(rests) - len(definitions)} types of the code"
    )


def main():
    known, handed_on = read_crates()
    rests = below([Key("backend_cli", "specs/Headline.antt", "Headline")], known, handed_on)
    if sys.argv[1:] == ["--rows"]:
        print_rows(known, below(named_in_clauses(), known, handed_on))
        return 0
    if sys.argv[1:] == ["--count"]:
        print_count(rests)
        return 0
    faults = list(faults_of(PAGE.read_text(), known, rests))
    print("\n".join(faults) or f"{PAGE.name} has what the headline rests on, and no more")
    return 1 if faults else 0


if __name__ == "__main__":
    sys.exit(main())
