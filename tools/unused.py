"""Names that are imported or defined and that nothing uses, read off the sources by their words."""
import os
import re
from collections import Counter

from repository import ROOT, crate_files, files, here, read

IMPORT = re.compile(r"^(pub |ghost )?use ([^\s;{]+?)(?:\.\{([^}]*)\})?(?: as (\S+?))?;?$", re.M)
DEFINED = re.compile(r"^( *)(?:(?:pub|abbrev|unfoldable|record|data) )*([^\s(){};,.]+)(?: [({][^)}]*[)}])* :(?: |$)")


def words(text):
    """How often each word occurs: what stands between blanks, brackets, commas and dots."""
    return Counter(re.split(r"[\s(){};,.]+", text))


def occurs(name, counted):
    """Whether a name occurs, or, of one with places for what it is applied to, such as `◌<?◌`, each word between them."""
    return counted[name] > 0 or "◌" in name and all(counted[part] > 0 for part in name.split("◌") if part)


class Source:
    """A file's imports, its definitions, and its words outside imports and comments."""

    def __init__(self, path):
        self.path = path
        bare = re.sub(r"(?m)(^|\s)(--|//).*$", r"\1", read(path))
        self.imports = [(m[2], split_names(m[3]), m[4]) for m in IMPORT.finditer(bare)]
        self.handed_on = {m[2] for m in IMPORT.finditer(bare) if m[1] == "pub "}
        self.text = re.sub(r"(?m)^infix.*$", "", IMPORT.sub("", bare))
        self.counted = words(self.text)
        if path.endswith(".rt"):
            self.counted += Counter(re.findall(r"\w+", self.text))

    def imported(self):
        """(module, name there, name here) of each import; of a whole module the name there is nothing."""
        for module, names, alias in self.imports:
            if names is None:
                yield module, None, alias or re.split(r"\.|::", module)[-1]
            else:
                yield from ((module, there, local) for there, local in names)

    def uses(self, module, name):
        """Whether this file brings the name in from the module, by itself or through the module's alias, and uses it."""
        for at, there, local in self.imported():
            if at == module and there == name and (at in self.handed_on or occurs(local, self.counted)):
                return True
            if at == module and there is None and f"{local}.{name}" in self.text:
                return True
        return self.path.endswith(".rt") and self.named_in_code(module, name)

    def named_in_code(self, module, name):
        """Whether the code names it by its path, as the tactic of a function does: `using(crate::proofs::Owed::exit_says)`."""
        crate, *rest = module.split(".")[1:]
        path = "::".join(rest + [name])
        return re.search(r"\b(?:crate|%s)::%s\b" % (crate, re.escape(path)), self.text) is not None


def split_names(names):
    """`a, b as c` as (there, here) pairs."""
    if names is None:
        return None
    pairs = [n.split(" as ") for n in re.split(r",\s*", names.strip()) if n]
    return [(p[0].strip(), p[-1].strip()) for p in pairs]


def sources(listed):
    return [Source(p) for c in listed for part, end in (("src", ".rt"), ("specs", ".antt"), ("proofs", ".antt")) for p in crate_files(c, part, end)]


def unused_imports(listed):
    found = []
    for source in sources(listed):
        for module, _, local in source.imported():
            if module not in source.handed_on and not occurs(local, source.counted):
                found.append(f"{here(source.path)}: imports `{local}` and does not use it")
    return found


def definitions(source):
    """(name, the words of its own block) of each definition at the top of a file or of a `module _`. A block ends with an empty line."""
    lines, top = source.text.split("\n"), ""
    for i, line in enumerate(lines):
        if line.strip() and not line.startswith(" "):
            top = line
        m = DEFINED.match(line)
        if m and (not m[1] or m[1] == "  " and top.startswith("module ")):
            end = next((j for j in range(i, len(lines)) if not lines[j].strip()), len(lines))
            yield m[2], words("\n".join(lines[i:end]))


def module_name(path):
    """The name of a file's module, in its crate and above."""
    _, crate, part, rest = here(path)[: -len(".antt")].split(os.sep, 3)
    inside = rest.replace(os.sep, ".")
    return f"Rattle.{crate}.{part}.{inside}"


def told():
    """The words in backquotes of every document."""
    return words(" ".join(w for path in files(ROOT, ".md") for w in re.findall(r"`([^`]*)`", read(path))))


def used_elsewhere(name, own, source, everything):
    if occurs(name, source.counted - own):
        return True
    module = module_name(source.path)
    return any(other.uses(module, name) for other in everything if other is not source)


def unused(listed):
    """The definitions that no other place uses and no document names. What a proof folder of a function has is the checker's."""
    everything, documents, found = sources(listed), told(), []
    for source in everything:
        if not source.path.endswith(".antt") or os.path.basename(source.path) in ("Proof.antt", "Answers.antt", "Invariants.antt"):
            continue
        for name, own in definitions(source):
            if documents[name] or used_elsewhere(name, own, source, everything):
                continue
            found.append(f"{here(source.path)}: {name}")
    return found
