"""What the tools know of the repository: its crates, their files, and the form of a must-fail edit."""
import os
import re
import signal

# What a tool prints may be cut short, by `head` say.
signal.signal(signal.SIGPIPE, signal.SIG_DFL)

ROOT = os.path.dirname(os.path.dirname(os.path.abspath(__file__)))

# What rt says of an edit that fell because a proof file names what the edit took away, so that no fact was refused.
SHAPE = "only because a proof file names what the edit took away"

# And of one at which the prover gave up, and so gave no verdict.
LIMIT = "only by a limit of the prover"

# Where ./test keeps what `rt ci` said.
SAID = os.path.join(ROOT, "target", "ci.log")


def read(path):
    with open(path, encoding="utf-8") as f:
        return f.read()


def here(path):
    """A path as it reads from the root."""
    return os.path.relpath(path, ROOT)


def crates():
    """Each crate of crates.txt, with what it uses."""
    out = {}
    for line in read(os.path.join(ROOT, "crates.txt")).split("\n"):
        name, colon, uses = line.split("#")[0].partition(":")
        if colon:
            out[name.split()[0]] = uses.split()
    return out


def files(folder, *endings):
    """The files below a folder that end so, in order; what is built or hidden is passed over."""
    found = []
    for at, folders, names in os.walk(folder):
        folders[:] = [d for d in folders if not d.startswith(".") and d not in ("target", "out", "__pycache__")]
        found += [os.path.join(at, n) for n in names if n.endswith(endings)]
    return sorted(found)


def crate_files(crate, part, *endings):
    return files(os.path.join(ROOT, "crates", crate, part), *endings)


class Edit:
    """A must-fail edit: CRATE/LABEL, and its replacements (file, old, new) in order."""

    def __init__(self, path):
        self.path = path
        self.crate = os.path.relpath(path, os.path.join(ROOT, "crates")).split(os.sep)[0]
        self.name = self.crate + "/" + os.path.basename(path)[: -len(".edit")]
        self.pairs = []
        at = old = ""
        for line in read(path).split("\n"):
            if line.startswith("file: "):
                at = line[len("file: ") :]
            elif line.startswith("old: "):
                old = line[len("old: ") :]
            elif line.startswith("new:"):
                new = line[len("new:") :]
                self.pairs.append((at, old, new[1:] if new.startswith(" ") else new))

    def changed(self):
        """(file, text) of each file once the replacements are made, one after another, as rt makes them; or what is wrong."""
        texts = {}
        if not self.pairs:
            return {}, "has no pair of `old:` and `new:`"
        for at, old, new in self.pairs:
            path = os.path.join(ROOT, "crates", self.crate, at)
            if not os.path.isfile(path):
                return {}, f"names {at}, which is not there"
            text = texts.get(at) or read(path)
            if not old or text.count(old) != 1:
                return {}, f"an `old:` text is in {at} {text.count(old) if old else 0} times, not once: {old.strip()}"
            texts[at] = text.replace(old, new)
        return texts, None


def edits(crate):
    return [Edit(path) for path in crate_files(crate, "must-fail", ".edit")]


def trials():
    """What `rt ci` said of each edit that it tried, CRATE/LABEL to the words after it; None where no run's words are kept."""
    if not os.path.exists(SAID):
        return None
    return dict(re.findall(r"^rt: must-fail (\S+?)\.edit: (.*)$", read(SAID), re.M))
