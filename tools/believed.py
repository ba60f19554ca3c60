#!/usr/bin/env python3
"""What a reader must believe: the definitions that the clauses of `smv_top::run` reach.

    tools/believed.py            lists them: part, crate, file, line, number of lines, name
    tools/believed.py --page     writes docs/BELIEVE.md
    tools/believed.py --check    ends with status 1 where docs/BELIEVE.md is not what --page would write
    tools/believed.py --why NAME    says by which definitions NAME is reached, from a clause down

A definition reaches what it names. Names are found by the `use` lines of its file, so a variable that is called as a definition of the same file reaches
that definition too: what is listed is never too little. A type of a `src/` file counts as a definition, with its comment and its fields; a trait by what a
clause can name of it, its `ghost` lines; a type that contracts see as another value, with the `impl Model` that says as which. What the kit defines is
named, and not followed.
"""
import functools
import re
import sys
from collections import namedtuple
from pathlib import Path

TOP = Path(__file__).resolve().parent.parent
PAGE = TOP / "docs/BELIEVE.md"
ROOT = ("smv_top", "run")

# A definition: where it stands (its file below crates/), its name, its first line, its lines of text, and the names that it uses, each a key or the kit's.
Definition = namedtuple("Definition", "file name line text")
# What the names of a file mean: its own definitions, what its imports bring in, the modules that it names otherwise, and the modules that it passes on.
Scope = namedtuple("Scope", "own names modules passed")

IMPORT = re.compile(r"^\s*(pub )?(?:ghost )?(?:pub )?use (Rattle\.[\w.\-]+?)(?:\.\{([^}]*)\}|\.(◌\S*◌))?(?: as ([\w]+))?;?\s*$", re.M)
HEAD = re.compile(r"^( *)(?:(?:abbrev|unfoldable|pattern|pub) )*(?:(record|data) )?([^\s:({]+)(?=[ :({])")
STARTS = re.compile(r"^ *(?:abbrev|unfoldable|pattern|pub|record|data)\b")
BLOCK = re.compile(r"^ *(?:(?:abbrev|unfoldable) )?mutual$|^ *module _ .*where$")
RUST_ITEM = re.compile(r"^pub (?:struct|enum|trait) (\w+)", re.M)
RUST_USE = re.compile(r"^(?:pub )?use ([\w:]+?)(?:::\{([^}]*)\})?;", re.M | re.S)


@functools.cache
def read(path):
    """Returns a file's text, or nothing where there is none."""
    return path.read_text() if path.exists() else ""


def module_file(module):
    """Returns the file of a module, or nothing where it is none of specs/."""
    crate, kind, *rest = module.split(".")[1:]
    return TOP / "crates" / crate / kind / ("/".join(rest) + ".antt")


@functools.cache
def modules_passed(crate):
    """Returns the modules that a crate passes on from lower ones, by their last name."""
    lib = read(TOP / "crates" / crate / "specs/Lib.antt")
    return {m.split(".")[-1]: m for m in re.findall(r"^pub use (Rattle\.[\w.]+)\s*$", lib, re.M)}


def found_module(parts):
    """Returns the module that the front of a path is, as it stands in its own crate, and what of the path is left."""
    crate, name, rest = parts[1], parts[3], parts[4:]
    while not (TOP / "crates" / crate / "specs" / f"{name}.antt").exists():
        if name not in modules_passed(crate):
            raise LookupError(".".join(parts))
        crate = modules_passed(crate)[name].split(".")[1]
    return f"Rattle.{crate}.specs.{name}", rest


def imports(text):
    """Returns the imports of a file: whether each is passed on, its path, its names and what it is called here."""
    for pub, path, names, sign, other in IMPORT.findall(text):
        listed = [n.strip() for n in names.split(",") if n.strip()] + ([sign] if sign else [])
        yield bool(pub), path, listed, other


def key_of(path, name):
    """Returns the definition that a name of a module is: a key, or one of the kit's."""
    parts = path.split(".")
    crate = parts[1]
    if not (TOP / "crates" / crate).is_dir():
        return ("kit", path, name)
    if parts[2] == "specs" and parts[3] in ("declared", "contracts"):
        return rust_key(crate, parts[4:] + [name])
    module, rest = found_module(parts)
    if rest:
        return (module, rest[0])
    scope = scope_of(module)
    if name in scope.own:
        return (module, scope.own[name])
    if name in scope.passed:
        return key_of(scope.passed[name], name)
    raise LookupError(f"{module} {name}")


def rust_key(crate, parts):
    """Returns the Rust type that a path of `declared` names: the first part that begins with a capital."""
    files = []
    for part in parts:
        if part[0].isupper():
            return (f"{crate}/src/{'/'.join(files) or 'lib'}.rt", part)
        files.append(part)
    return (f"{crate}/src/{'/'.join(files) or 'lib'}.rt", parts[-1])


@functools.cache
def definitions_in(module):
    """Returns the definitions of a module of specs/, in their order."""
    path = module_file(module)
    lines = read(path).split("\n")
    heads, levels, header = [], [0], {}
    for k, line in enumerate(lines):
        if not line.strip() or line.lstrip().startswith("--") or re.match(r"\s*(pub )?use ", line):
            continue
        indent = len(line) - len(line.lstrip())
        while levels[-1] > indent:
            levels.pop()
        if BLOCK.match(line):
            levels.append(indent + 2)
            header[k] = indent
        elif indent == levels[-1] and HEAD.match(line) and (STARTS.match(line) or re.match(r"\s*[^\s=]+ : ", line)) and " : " in line:
            heads.append((k, indent, HEAD.match(line).group(3)))
    found = []
    for n, (k, indent, name) in enumerate(heads):
        first = k
        while first > 0 and lines[first - 1].lstrip().startswith("--") and not lines[first - 1].lstrip().startswith("-- ----"):
            first -= 1
        last = heads[n + 1][0] if n + 1 < len(heads) else len(lines)
        last = min([last] + [b for b in header if b > k])
        while last - 1 > k and (not lines[last - 1].strip() or lines[last - 1].lstrip().startswith("--")):
            last -= 1
        # The parameters of the modules around it are part of what it says.
        around = [lines[b] for b in header if b < k and header[b] < indent and all(header[c] > header[b] or c < b for c in header if b < c < k) and lines[b].lstrip().startswith("module")]
        found.append(Definition(str(path.relative_to(TOP / "crates")), name, first + 1, "\n".join(lines[first:last]) + "".join("\n--around " + a for a in around)))
    return found


@functools.cache
def scope_of(module):
    """Returns what the names of a module of specs/ mean."""
    own, names, modules, passed = {}, {}, {}, {}
    for found in definitions_in(module):
        own[found.name] = found.name
        body = found.text.split("\n")
        if any(re.match(r" *(?:abbrev )?(?:pub )?data ", line) for line in body):
            for line in body:
                constructor = re.match(r"^ +([^\s:]+) : ", line)
                if constructor:
                    own.setdefault(constructor.group(1), found.name)
    for pub, path, listed, other in imports(read(module_file(module))):
        if not listed:
            modules[other or path.split(".")[-1]] = path
        for entry in listed:
            name, _, called = entry.partition(" as ")
            names[called or name] = (path, name)
            if pub:
                passed[called or name] = path
    return Scope(own, names, modules, passed)


def without_comments(text):
    """Returns the text of a definition without its comments and strings."""
    kept = []
    for line in text.split("\n"):
        if line.startswith("--around "):
            kept.append(line[9:])
        else:
            kept.append(re.sub(r"--.*", "", re.sub(r'"[^"]*"', '""', line)))
    return "\n".join(kept)


def signs(names):
    """Returns the names of operators by their signs: ◌≡◌ by ≡, if◌then◌else◌ by if."""
    return {next(part for part in name.split("◌") if part): name for name in names if "◌" in name}


def reached_by_text(text, module):
    """Returns what a definition of specs/ names."""
    scope, found = scope_of(module), []
    by_sign, own_signs = signs(scope.names), signs(scope.own)
    text = without_comments(text)
    for at in re.finditer(r"(?<![\w.'\-])([A-Za-z]\w*)\.([^\s(){}\[\],;.]+)", text):
        if at.group(1) in scope.modules:
            found.append(key_of(scope.modules[at.group(1)], at.group(2)))
    for at in re.finditer(r"(?<![.\w'\-])[^\s(){}\[\],;.◌]+", text):
        word = at.group(0)
        word = own_signs.get(word, by_sign.get(word, word))
        if word in scope.own:
            found.append((module, scope.own[word]))
        elif word in scope.names:
            found.append(key_of(*scope.names[word]))
    return list(dict.fromkeys(found))


def closing(text, start):
    """Returns where the block that opens behind a place ends, or the line where none opens."""
    depth = 0
    text = re.sub(r"//.*", lambda comment: " " * len(comment.group(0)), text)
    for k in range(start, len(text)):
        if text[k] == "{":
            depth += 1
        elif text[k] == "}":
            depth -= 1
            if depth == 0:
                return k + 1
        elif text[k] == ";" and depth == 0:
            return k + 1
    return len(text)


def rust_item(file, name):
    """Returns the definition of a type or a trait of a src/ file, or of the file that its crate's root passes it on from."""
    path = TOP / "crates" / file
    text = read(path)
    at = re.search(rf"^pub (?:struct|enum|trait) {name}\b", text, re.M)
    if not at:
        return None
    body = text[at.start():closing(text, at.start())]
    if at.group(0).startswith("pub trait"):
        body = "\n".join(line for line in body.split("\n") if re.match(r"\s*(pub trait|ghost |/// )|^\}", line))
        body = re.sub(r"(?:    ///.*\n)+(?=    ///|\})", "", body)
    first = at.start()
    above = text[:first].split("\n")[:-1]
    comment = []
    while above and re.match(r"(///|#\[)", above[-1]):
        comment.insert(0, above.pop())
    model = re.search(rf"^impl(?:<[^>]*>)? Model for {name}\b", text, re.M)
    if model:
        body += "\n\n" + text[model.start():closing(text, model.start())]
    line = len(above) + 1
    kept = [entry for entry in comment if entry.startswith("///")]
    return Definition(file, name, line, "\n".join(kept + [body]))


@functools.cache
def rust_scope(file):
    """Returns what the names of a src/ file mean: types of the file, and those that it uses."""
    crate = file.split("/")[0]
    text = read(TOP / "crates" / file)
    names = {name: (file, name) for name in RUST_ITEM.findall(text)}
    for path, listed in RUST_USE.findall(text):
        parts = path.split("::")
        entries = [e.strip() for e in listed.split(",") if e.strip()] if listed else [parts.pop()]
        home = crate if parts and parts[0] in ("crate", "self", "super") else (parts[0] if parts else crate)
        if not (TOP / "crates" / home).is_dir():
            continue
        for entry in entries:
            name = entry.split(" as ")[0].split("::")[-1]
            if name[:1].isupper():
                found = rust_home(home, name)
                if found:
                    names.setdefault(entry.split(" as ")[-1].split("::")[-1], (found, name))
    return names


@functools.cache
def rust_home(crate, name):
    """Returns the src/ file of a crate that has a type or a trait of this name."""
    for path in sorted((TOP / "crates" / crate / "src").rglob("*.rt")):
        if re.search(rf"^pub (?:struct|enum|trait) {name}\b", read(path), re.M):
            return str(path.relative_to(TOP / "crates"))
    return None


def ghost_names(text):
    """Returns what the `ghost use` lines of a src/ text bring in: names and modules."""
    names, modules = {}, {}
    for _, path, listed, other in imports("\n".join(line.strip() for line in text.split("\n") if line.strip().startswith("ghost use"))):
        if not listed:
            modules[other or path.split(".")[-1]] = path
        for entry in listed:
            name, _, called = entry.partition(" as ")
            names[called or name] = (path, name)
    return names, modules


def reached_by_rust(text, file):
    """Returns what a text of src/ names: Rust types, and what its `ghost use` lines bring in."""
    names, modules = ghost_names(read(TOP / "crates" / file))
    types, found, by_sign = rust_scope(file), [], signs(names)
    text = re.sub(r"ghost use .*", "", re.sub(r"//.*", "", text))
    for at in re.finditer(r"(?<![.\w'\-])([A-Za-z]\w*)\.([^\s(){}\[\],;.]+)", text):
        if at.group(1) in modules:
            found.append(key_of(modules[at.group(1)], at.group(2)))
    for at in re.finditer(r"(?<![.\w'\-])[^\s(){}\[\],;.:<>&]+|◌?<[^\s]*>◌?", text):
        word = by_sign.get(at.group(0), at.group(0))
        if word in names:
            found.append(key_of(*names[word]))
        elif word in types:
            found.append(types[word])
    return list(dict.fromkeys(found))


@functools.cache
def definition(key):
    """Returns a definition by its key."""
    if key[0].endswith(".rt"):
        return rust_item(*key)
    return next((found for found in definitions_in(key[0]) if found.name == key[1]), None)


@functools.cache
def uses(key):
    """Returns what a definition names, itself left out."""
    found = definition(key)
    if key[0].endswith(".rt"):
        reached = reached_by_rust(found.text, key[0])
    else:
        reached = reached_by_text(found.text, key[0])
    return [other for other in reached if other != key]


def reach(starts, known=()):
    """Returns all that is reached, in the order in which a reader comes to it, breadth first; and the kit's own."""
    seen, waiting, kit = dict.fromkeys(()), list(starts), {}
    while waiting:
        following = []
        for key in waiting:
            if key[0] == "kit":
                kit[key[2]] = key[1]
            elif key not in seen and key not in known:
                if definition(key) is None:
                    raise LookupError(f"no definition of {key}")
                seen[key] = None
                following += uses(key)
        waiting = following
    return list(seen), kit


@functools.cache
def clauses():
    """Returns the clauses of the top call by their names, and what each names."""
    crate, call = ROOT
    file = f"{crate}/src/lib.rt"
    text = read(TOP / "crates" / file)
    head = text[text.index(f"pub fn {call}"):]
    head = head[:re.search(r"^\{", head, re.M).start()]
    found = {}
    for at in re.finditer(r"^ +(?:ensures|requires) (\w+) ", head, re.M):
        found[at.group(1)] = reached_by_rust(head[at.end():closing(head, at.end())], file)
    found["its types"] = reached_by_rust(head[:head.index("ensures")], file)
    return found


def parts():
    """Returns the parts of what must be believed: a title, what it says, and its definitions. What stands in an earlier part is not told again."""
    valid = ("Rattle.law_valid_texts.specs.Reports", "IsValid")
    headline = key_of("Rattle.law_valid_texts.specs.Reports", "IsSoundDesign")
    sound = key_of("Rattle.smv_core.specs.Sound", "IsSound")
    tree = key_of("Rattle.law_valid_texts.specs.Plans", "IsTree")
    if headline not in clauses()["sound"]:
        raise LookupError("the clause `sound` does not speak of IsSoundDesign")
    meaning, kit = reach([sound])
    spelling, more = reach([tree], set(meaning))
    kit |= more
    told_before = set(meaning) | set(spelling)
    rest, more = reach(clauses()["sound"], told_before)
    kit |= more
    ends, _ = reach([key for key in clauses()["sound"] if key != headline and key[0] != "kit"] + [key for key in clauses()["its types"] if key[1] == "Source"], told_before)
    top = [headline, valid] + ends
    faults = [key for key in rest if key not in top]
    owed, more = reach([key for name, keys in clauses().items() if name != "sound" for key in keys], told_before | set(rest) | set(top))
    kit |= more
    return [
        ("The headline", top),
        ("What it means that a design is sound", meaning),
        ("Which tree the bytes spell", spelling),
        ("When a text is valid", faults),
        ("What a call owes", owed),
    ], kit


def lines_of(key):
    """Returns how many lines a definition has, the empty ones left out."""
    return sum(1 for line in definition(key).text.split("\n") if line.strip() and not line.startswith("--around "))


def by_file(keys):
    """Returns the definitions file by file: files in the order in which they are reached, definitions in that of their lines."""
    files = {}
    for key in keys:
        files.setdefault(definition(key).file, []).append(key)
    return {file: sorted(own, key=lambda key: definition(key).line) for file, own in files.items()}


def about(file):
    """Returns the first sentence that a file says of itself."""
    first = read(TOP / "crates" / file).split("\n")[0]
    said = re.sub(r"^(--|//!|//)\s*", "", first) if re.match(r"(--|//)", first) else ""
    return re.split(r"(?<=[.:;]) ", said)[0].rstrip(".:; ")


def shown(*keys):
    """Returns definitions as they stand in their files."""
    blocks = []
    for key in keys:
        lines = [line for line in definition(key).text.split("\n") if not line.startswith("--around ")]
        indent = min(len(line) - len(line.lstrip()) for line in lines if line.strip())
        blocks.append("\n".join(line[indent:] for line in lines))
    return "```antt\n" + "\n\n".join(blocks) + "\n```"


def shown_clause(name):
    """Returns a clause of the top call as it stands in its file."""
    text = read(TOP / "crates" / ROOT[0] / "src/lib.rt")
    clause = text[text.index(f"ensures {name} "):]
    return "```rust\n" + clause[:clause.index("\n")] + "\n```"


# What is shown of a part as it stands, by file and name.
SHOWN = {
    "The headline": [("Rattle.law_valid_texts.specs.Reports", "IsSoundDesign"), ("Rattle.law_valid_texts.specs.Reports", "IsValid")],
    "What it means that a design is sound": [("Rattle.smv_core.specs.Sound", name) for name in ("IsSound", "IsRun", "IsTyped", "MeetsBase", "EachElement", "Holds", "AtEachTime")],
    "Which tree the bytes spell": [("Rattle.law_valid_texts.specs.Plans", "IsTree"), ("Rattle.law_valid_texts.specs.Plans", "SpellsTree")],
    "When a text is valid": [("Rattle.law_valid_texts.specs.Faults", "faults_by_pass")],
    "What a call owes": [("Rattle.law_answers.specs.Dues", "IsDue"), ("Rattle.law_answers.specs.Dues", "IsFault")],
}


TEXTS = {
    "The headline": """Where `run` answers AllProved, and the source tells what bytes it had left, these spell a valid design that is sound. A design is valid where its bytes spell a tree and no pass
finds a fault in it; it is sound where each of its units holds at each time of each run, for all sizes of its set types.""",
    "What it means that a design is sound": """This is the half to read word by word. It says what a state is and what a run is, what each expression and each statement of the language means, what an assignment allows,
which units a design has and when one holds. It knows nothing of flattening, of abstraction, of cases or of diagrams: that these find the truth is proved.""",
    "Which tree the bytes spell": """Tokens by longest match, and a grammar whose rules are written side by side with the forms of the tree. It matters only for the question of which design is meant; `print` writes the
tree that was read, so a reader can look at it. That a text spells at most one tree is proved (`law_valid_texts`, `one_tree`).""",
    "When a text is valid": """The first fault of a text, pass by pass. Soundness rests on none of it: a fault that were found too often would only refuse a text. It says how a text becomes a flattened text and a
design, since faults 15 to 30 are told of these.""",
    "What a call owes": """The other clauses of `run`: which answer is due to which words and which text, what a report says of each unit, how its lines are written, what a source and a sink promise, and when a
fault may be told. Here stand cases, diagrams, searches and paths, since a report names them.""",
}


def page():
    """Returns the page."""
    found, kit = parts()
    counts = [(len(keys), sum(map(lines_of, keys)), len(by_file(keys))) for _, keys in found]
    total = [sum(column) for column in zip(*counts)]
    files = len({definition(key).file for _, keys in found for key in keys})
    out = [
        "# What a reader must believe",
        "",
        "A proof says no more than the definitions that its theorem names. The theorem of this program is the contract of `smv_top::run`, its clauses over some words. Below stands each",
        "definition that these words reach, and nothing else of the repository is needed to know what they say: no pass, no proof, no lemma.",
        "",
        "Read from the top. Each part says what it is for; in a part files come in the order in which the headline leads to them, and beside each name stands its line. Names in italics are",
        "types of `src/`, which count by their fields and comments. The kit's words (lists, numbers, options) are named at the end.",
        "",
        f"In all {total[0]:,} definitions, {total[1]:,} lines in {files} files. Written by `tools/believed.py --page`, which finds them by their names; `--why NAME` says how a definition is reached.",
        "",
        "| part | definitions | lines | files |",
        "|---|---|---|---|",
    ]
    for (title, _), (n, lines, of) in zip(found, counts):
        out.append(f"| [{title}](#{title.lower().replace(' ', '-')}) | {n:,} | {lines:,} | {of} |")
    out += [
        "",
        "For soundness alone the first two parts are enough, and the third for who doubts which design is meant. What is trusted beside all this (the checker and its libraries' statements, the",
        "C library, the two adapters at the edge, and `smv_main`, which hands on the words) is said in the README under \"Trusted\".",
    ]
    for title, keys in found:
        out += ["", f"## {title}", "", TEXTS[title], ""]
        if title == "The headline":
            out += [shown_clause("sound"), ""]
        out += [shown(*SHOWN[title]), ""]
        for file, own in by_file(keys).items():
            said = about(file)
            name = re.sub(r"\.(antt|rt)$", "", file)
            listed = ", ".join(f"*{k[1]}* {definition(k).line}" if k[0].endswith(".rt") else f"`{k[1]}` {definition(k).line}" for k in own)
            count = sum(map(lines_of, own))
            out.append(f"- **[{name}](../crates/{file})**, {count} line{'s' if count > 1 else ''}{f' ({said[0].lower() + said[1:]})' if said else ''}: {listed}")
    words = sorted(name for name in kit if "◌" not in name)
    out += ["", "## The kit's words", "", "Named, and not followed: " + ", ".join(f"`{word}`" for word in words) + "; and the signs " + " ".join(sorted(f"`{name}`" for name in kit if "◌" in name)) + "."]
    return "\n".join(out) + "\n"


def why(name):
    """Says by which definitions a name is reached."""
    starts = [key for keys in clauses().values() for key in keys if key[0] != "kit"]
    came, waiting = {key: None for key in starts}, list(starts)
    while waiting:
        key = waiting.pop(0)
        if key[1] == name:
            way = []
            while key:
                way.append(f"{definition(key).file}:{definition(key).line} {key[1]}")
                key = came[key]
            return "\n".join(reversed(way))
        for other in uses(key):
            if other[0] != "kit" and other not in came:
                came[other] = key
                waiting.append(other)
    return f"{name} is not reached"


def main():
    words = sys.argv[1:]
    if words == ["--page"]:
        PAGE.write_text(page())
    elif words == ["--check"]:
        if read(PAGE) != page():
            print("docs/BELIEVE.md is out of date: run tools/believed.py --page, and read what changed", file=sys.stderr)
            return 1
        print("docs/BELIEVE.md is what the clauses of smv_top::run reach")
    elif len(words) == 2 and words[0] == "--why":
        print(why(words[1]))
    elif not words:
        for title, keys in parts()[0]:
            for file, own in by_file(keys).items():
                for key in own:
                    print(f"{title}\t{file.split('/')[0]}\t{file}\t{definition(key).line}\t{lines_of(key)}\t{key[1]}")
    else:
        print(__doc__, file=sys.stderr)
        return 2
    return 0


if __name__ == "__main__":
    sys.exit(main())
