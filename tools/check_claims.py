"""Finds what README.md and docs/ say of functions and clauses that the sources do not have, and which promises of
functions that other crates can call docs/CLAIMS.md does not name.

A function is named `crate::function`, `crate::Type::method` or `crate::module::function`, and one that other
crates cannot call has the word private before it. Its clauses may follow, as (`found`, `only`). Any other
`crate::name` has to be a type, trait, constant or module. Of `Type::method` and of a name with an underscore, any
crate has to have one; such a name may also be a text that its specs spell, as a variable's. Prints each fault with its place, and fails where there is one.
"""
import re
import sys

sys.dont_write_bytecode = True
import sources  # noqa: E402

CLAIMS = sources.TOP / "docs" / "CLAIMS.md"
CITED = re.compile(r"(private )?`([a-z]\w*)::((?:\w+::)*\w+)`(?: \(((?:`\w+`(?:, )?)+)\))?")
LOOSE = re.compile(r"`([A-Z]\w*::[a-z]\w*|[a-z]+(?:_[a-z0-9]+)+)`")


class Names:
    def __init__(self):
        self.crates = set(sources.crates())
        self.others = sources.kit_crates()
        self.functions = {}
        for function in sources.functions():
            self.functions.setdefault((function.crate, function.owner, function.name), []).append(function)
        self.items = {crate: sources.items(crate) for crate in self.crates}
        self.loose = self.crates | self.others | {word.name for word in sources.words()} | sources.texts()
        for crate, owner, name in self.functions:
            self.loose.update((name, "%s::%s" % (owner, name)))
        for group in list(self.items.values()) + [f.clauses for fs in self.functions.values() for f in fs]:
            self.loose.update(group)

    def find(self, crate, path):
        """The functions that a path names, which may name the module or leave it out."""
        parts = path.split("::")
        owner = parts[-2] if len(parts) > 1 and parts[-2][0].isupper() else ""
        modules = {part for part in parts[:-1] if part != owner}
        return [function for function in self.functions.get((crate, owner, parts[-1]), [])
                if modules <= {function.module}]

    def faults(self, is_private, crate, path, clauses):
        if crate in self.others:
            return []
        if crate not in self.crates:
            return ["no crate is named `%s`" % crate]
        found, name = self.find(crate, path), "`%s::%s`" % (crate, path)
        if not found:
            is_item = path.split("::")[-1] in self.items[crate] and not clauses and not is_private
            return [] if is_item else ["nothing is named " + name]
        if not is_private:
            found = [function for function in found if function.public]
            if not found:
                return [name + " is private"]
        return ["%s has no clause `%s`" % (name, clause) for clause in clauses
                if not any(clause in function.clauses for function in found)]


def lines_of(page):
    """The lines of a page with their numbers, without those between fences."""
    is_fenced = False
    for number, line in enumerate(page.read_text(encoding="utf-8").split("\n"), 1):
        if line.startswith("```"):
            is_fenced = not is_fenced
        elif not is_fenced:
            yield number, line


def cited(line):
    for private, crate, path, clauses in CITED.findall(line):
        yield bool(private), crate, path, re.findall(r"\w+", clauses)


def stale(names):
    """What the pages say that is not there."""
    for page in [sources.TOP / "README.md"] + sorted((sources.TOP / "docs").glob("*.md")):
        for number, line in lines_of(page):
            faults = [fault for parts in cited(line) for fault in names.faults(*parts)]
            faults += ["nothing is named `%s`" % name for name in LOOSE.findall(line) if name not in names.loose]
            for fault in faults:
                yield "%s:%d: %s" % (page.relative_to(sources.TOP), number, fault)


def unsaid(names):
    """The promises that docs/CLAIMS.md does not name."""
    said = set()
    for _, line in lines_of(CLAIMS):
        for _, crate, path, clauses in cited(line):
            for function in names.find(crate, path):
                said.update((crate, function.owner, function.name, clause) for clause in clauses + [""])
    for (crate, owner, name), functions in names.functions.items():
        left = [clause for function in functions if function.public for clause in function.promises
                if (crate, owner, name, clause) not in said]
        if left:
            path = "::".join(part for part in (crate, owner, name) if part)
            listed = ", ".join("`%s`" % clause for clause in left if clause)
            yield "docs/CLAIMS.md: no claim of `%s`%s" % (path, listed and " (%s)" % listed)


def main():
    names = Names()
    faults = list(stale(names)) + list(unsaid(names))
    for fault in faults:
        print("claims: " + fault)
    return 1 if faults else 0


if __name__ == "__main__":
    sys.exit(main())
