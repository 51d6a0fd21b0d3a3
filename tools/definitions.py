"""Makes docs/DEFINITIONS.md of the comments in specs/, or with --check fails where that page is stale.

It lists the words that a clause names of a function that other crates can call, under the first comment of their
file, which says what they are about and which section of a standard they come from. With --bare it lists those of
them that have no comment of their own.
"""
import difflib
import re
import sys

sys.dont_write_bytecode = True
import sources  # noqa: E402

PAGE = sources.TOP / "docs" / "DEFINITIONS.md"
OPENING = """# Definitions

The words of `specs/` that a clause of a public function names, by crate and file, in the order of the sources. \
A word that only other words name is found in their files, `crates/NAME/specs/`. This page is made by \
`tools/definitions.py` of the comments there, so mend it there.
"""
NAME = re.compile(r"[^\s(){}\[\],.;λ]+")


def cited():
    """The words that public clauses name, by crate, file and name."""
    found = set()
    for function in sources.functions():
        if function.public:
            for text in function.clauses.values():
                for name in NAME.findall(text):
                    if name in function.imports:
                        found.add(function.imports[name] + (name,))
    return found


def sentence(text):
    text = text[:1].upper() + text[1:]
    return text if text[-1:] in ".:" else text + "."


def page():
    wanted, text = cited(), OPENING
    by_file = {}
    for word in sources.words():
        if (word.crate, word.file, word.name) in wanted:
            by_file.setdefault((word.crate, word.file), []).append(word)
    for crate in sources.crates():
        files = [file for file in sources.spec_files(crate) if (crate, file.stem) in by_file]
        text += "\n## `%s`\n" % crate if files else ""
        for file in files:
            text += "\n### `%s`\n\n%s\n\n" % (file.name, sentence(sources.heading(file)))
            for word in by_file[crate, file.stem]:
                text += "- `%s`%s\n" % (word.name, word.comment and ": " + word.comment)
    return text


def check(text):
    there = PAGE.read_text(encoding="utf-8") if PAGE.exists() else ""
    if there == text:
        return 0
    for line in difflib.unified_diff(there.split("\n"), text.split("\n"), "docs/DEFINITIONS.md", "specs", "", "", 0, ""):
        print(line)
    print("definitions: docs/DEFINITIONS.md is stale: run python3 tools/definitions.py")
    return 1


def bare():
    wanted = cited()
    for word in sources.words():
        if (word.crate, word.file, word.name) in wanted and not word.comment:
            print("crates/%s/specs/%s.antt: %s" % (word.crate, word.file, word.name))
    return 0


if __name__ == "__main__":
    if sys.argv[1:] == ["--check"]:
        sys.exit(check(page()))
    if sys.argv[1:] == ["--bare"]:
        sys.exit(bare())
    PAGE.write_text(page(), encoding="utf-8")
