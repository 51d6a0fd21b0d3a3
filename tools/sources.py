"""Reads the sources of the crates: their functions with the clauses, and the words of specs/.

It goes by the layout that `rt fmt` gives: an item of a file begins at its edge, a method four places
further, and a clause four places behind its function.
"""
import collections
import pathlib
import re

TOP = pathlib.Path(__file__).resolve().parent.parent

# A function: the crate and module, the type or trait that it stands in or "", its name, whether another crate can
# call it, the trait that it meets or "", its clauses by name ("" for the one without a name) with their texts, the
# names of those that promise, and the words that its file brings in for them, each with its crate and file.
Function = collections.namedtuple("Function", "crate module owner name public meets clauses promises imports")
# A word of specs/: where it stands, and the comment above it.
Word = collections.namedtuple("Word", "crate file name comment")

FUNCTION = re.compile(r"^( *)(pub )?(?:pub\([a-z]+\) )?(?:const )?(?:unsafe )?fn (\w+)")
BLOCK = re.compile(r"^( *)(?:pub )?(impl|trait|mod)\b(.*)")
CLAUSE = re.compile(r"^ *(ensures|requires)(?: (\w+))? \{")
IMPORT = re.compile(r"ghost use Rattle\.(\w+)\.specs\.(\w+)\.\{([^}]*)\}")
ITEM = re.compile(r"^ *pub (?:const )?(?:struct|enum|trait|type|const|static|mod) (\w+)", re.M)
EXPORT = re.compile(r"^pub (?:mod (\w+);|use (\w+)::(?:(\w+)|\{([^}]*)\});)", re.M)
DEFINED = re.compile(r"^(?:abbrev |unfoldable |opaque )*pub (?:record |data )?(\S+)")


def crates():
    """The names of the crates, in the order of crates.txt."""
    lines = (TOP / "crates.txt").read_text(encoding="utf-8").split("\n")
    return [re.match(r"\w+", line).group() for line in lines if re.match(r"\w", line)]


def kit_crates():
    """The crates of the kit that crates.txt names, and the standard library."""
    text = re.sub(r"#.*", "", (TOP / "crates.txt").read_text(encoding="utf-8"))
    return set(re.findall(r"\w+", text)) - set(crates()) | {"std"}


def source_files(crate):
    """The files of a crate's sources, less its tests."""
    found = sorted((TOP / "crates" / crate / "src").rglob("*.rt"))
    return [file for file in found if file.name != "tests.rt" and "tests" not in file.parts]


def texts():
    """The texts that specs/ spell: words of commands and names of variables among them."""
    files = [file for crate in crates() for file in (TOP / "crates" / crate / "specs").glob("*.antt")]
    return {text for file in files for text in re.findall(r'codes "([^"]*)"', file.read_text(encoding="utf-8"))}


def without_comments(text):
    return "\n".join("" if line.lstrip().startswith("//") else line for line in text.split("\n"))


def exports(crate):
    """The modules that another crate can name, and the names that the root file passes on; of a program all."""
    root = TOP / "crates" / crate / "src" / "lib.rt"
    if not root.is_file():
        return {file.stem for file in source_files(crate)}, set()
    modules, names = set(), set()
    for module, _, one, many in EXPORT.findall(without_comments(root.read_text(encoding="utf-8"))):
        modules.add(module)
        names.update(name.strip() for name in (one + many).split(","))
    return modules, names


def owner_of(kind, rest):
    """The type or trait that a block is about, and the trait that it meets."""
    rest = re.sub(r"^\s*<[^{]*?>(?=\s)", "", rest)
    names = re.findall(r"(?:\w+::)*(\w+)", rest)
    if kind != "impl" or not names:
        return (names[0] if names else ""), ""
    held = re.search(r"\bfor (?:\w+::)*(\w+)", rest)
    return (held.group(1), names[0]) if held else (names[0], "")


def clause_text(lines, at):
    """What stands between the braces of the clause that begins in this line."""
    text, depth = "", 0
    for line in lines[at:]:
        for sign in line[line.index("{") if not text and "{" in line else 0:]:
            depth += (sign == "{") - (sign == "}")
            text += sign
            if not depth:
                return text[1:-1]
        text += "\n"
    return text


def past_braces(lines, row):
    """The line behind the ghost parameter, ghost import or clause that begins in this line."""
    depth = 0
    while row < len(lines):
        depth += lines[row].count("{") - lines[row].count("}")
        row += 1
        if depth <= 0:
            break
    return row


def header(lines, at, indent):
    """The clauses of the function that begins in this line, and the names of those that promise."""
    clauses, promises, row = {}, [], at
    while row < len(lines):
        line = lines[row]
        if line.lstrip().startswith("ghost"):
            row = past_braces(lines, row)
            continue
        clause = CLAUSE.match(line)
        if clause:
            name = clause.group(2) or ""
            clauses[name] = clauses.get(name, "") + clause_text(lines, row)
            promises += [name] if clause.group(1) == "ensures" else []
            row = past_braces(lines, row)
            if lines[row - 1].endswith(";"):
                break
            continue
        if re.match(" {%d}[{}]" % indent, line) or line.endswith("{"):
            break
        # A method of a trait ends without a body.
        if line.endswith(";") and line.count("{") == line.count("}"):
            break
        row += 1
    return clauses, promises


def functions_of(crate, file, modules, names):
    text = without_comments(file.read_text(encoding="utf-8"))
    lines, owner, meets, public_block, tests = text.split("\n"), "", "", False, None
    imports = {}
    for found in IMPORT.finditer(text):
        for name in found.group(3).split(","):
            imports[name.strip()] = (found.group(1), found.group(2))
    for row, line in enumerate(lines):
        block = BLOCK.match(line)
        if block and not line.rstrip().endswith(";"):
            if block.group(2) == "mod":
                tests = len(block.group(1))
            elif tests is None:
                heading = " ".join(part.strip() for part in lines[row:row + 4]).split("{")[0]
                owner, meets = owner_of(block.group(2), BLOCK.match(heading).group(3))
                public_block = block.group(2) == "trait" or meets != ""
        if tests is not None:
            tests = None if line == " " * tests + "}" else tests
            continue
        found = FUNCTION.match(line)
        if found:
            indent = len(found.group(1))
            public = bool(found.group(2)) or (indent > 0 and public_block)
            of = owner if indent else ""
            seen = file.stem in modules or (of or found.group(3)) in names
            yield Function(crate, file.stem, of, found.group(3), public and seen, meets if indent else "",
                           *header(lines, row, indent), imports)


def functions():
    """All functions of all crates; one that meets a trait has the trait's clauses too."""
    found = [f for crate in crates() for file in source_files(crate)
             for f in functions_of(crate, file, *exports(crate))]
    by_trait = {(f.owner, f.name): f.clauses for f in found if f.owner and not f.meets}
    return [with_trait(f, by_trait.get((f.meets, f.name), {})) if f.meets else f for f in found]


def with_trait(function, clauses):
    """A method with the clauses of its trait, of which it promises nothing new."""
    promises = [name for name in function.promises if name not in clauses]
    return function._replace(clauses=dict(clauses, **function.clauses), promises=promises)


def items(crate):
    """The types, traits, constants and modules that the public can name."""
    names = set()
    for file in source_files(crate):
        names.update(ITEM.findall(without_comments(file.read_text(encoding="utf-8"))))
        names.add(file.stem)
    return names


def comment_above(lines, at):
    """The comment that stands just above a line, as one text."""
    first = at
    while first and lines[first - 1].startswith("--"):
        first -= 1
    return " ".join(line[2:].strip() for line in lines[first:at])


def heading(file):
    """What the first comment of a file of specs/ says."""
    lines = file.read_text(encoding="utf-8").split("\n")
    last = 0
    while lines[last].startswith("--"):
        last += 1
    return " ".join(line[2:].strip() for line in lines[:last])


def spec_files(crate):
    return sorted(file for file in (TOP / "crates" / crate / "specs").glob("*.antt") if file.name != "Lib.antt")


def words():
    """The words of specs/, in the order in which they stand."""
    for crate in crates():
        for file in spec_files(crate):
            lines = file.read_text(encoding="utf-8").split("\n")
            for row, line in enumerate(lines):
                found = DEFINED.match(line)
                if found and found.group(1) not in ("mod", "use"):
                    yield Word(crate, file.stem, found.group(1), comment_above(lines, row))
