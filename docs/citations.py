"""Which definitions the clauses of public calls cite, and on which these rest: what docs/define looks up."""
import re

from contracts import NAME, ROOT, public_calls

IMPORT = r"Rattle\.(s2_\w+)\.specs\.([\w.]+)\.\{([^}]*)\}"
ALIAS = r"Rattle\.(s2_\w+)\.specs\.([\w.]+) as (\w+)"
PASSED_ON = re.compile(r"pub use Rattle\.(s2_\w+)\.specs\.([\w.]+)\.\{([^}]*)\}")


def home_of(crate, module, name):
    """The crate and the file of specs that define a name imported from there, through each `pub use`."""
    path = ROOT / "crates" / crate / "specs"
    file = path.joinpath(*module.split(".")).with_suffix(".antt")
    text = file.read_text(encoding="utf-8") if file.exists() else ""
    for home, source, names in PASSED_ON.findall(text):
        if name in NAME.findall(names):
            return home_of(home, source, name)
    if not file.exists() and (path / "Lib.antt").exists():
        lib = (path / "Lib.antt").read_text(encoding="utf-8")
        for home in re.findall(rf"pub use Rattle\.(s2_\w+)\.specs\.{re.escape(module)}$", lib, re.M):
            return home_of(home, module, name)
    return crate, module, name


def cited():
    """What the clauses of public calls cite: (crate, file of specs, name) -> (crate, call) of each call that cites it."""
    citations = {}
    for crate in sorted((ROOT / "crates").iterdir()):
        for path, text, owner, name, clauses in public_calls(crate):
            in_laws = "laws" in (path.stem, path.parent.stem)
            call = crate.name, "::".join(filter(None, [owner or ("laws" if in_laws else None), name]))
            said = "\n".join(it.said for it in clauses if (it.kind, it.name) != ("ghost", "invariant"))
            for key in named(text, said, "ghost use "):
                citations.setdefault(key, set()).add(call)
    return citations


def named(text, said, use):
    """The definitions that some of a text names, by what the text imports: (crate, file of specs, name)."""
    words = set(NAME.findall(said))
    for home, module, names in re.findall(use + IMPORT, text):
        for item in names.split(","):
            name, _, new = item.strip().partition(" as ")
            if NAME.fullmatch(name) and (new.strip() or name) in words:
                yield home_of(home, module, name)
    for home, module, alias in re.findall(use + ALIAS, text):
        for name in re.findall(r"\b" + alias + r"\.(\w+)", said):
            yield home_of(home, module, name)
