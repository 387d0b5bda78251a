"""What the sources say of inlining: the hint of each function, by the name that a built program has for it."""
import pathlib
import re

CRATES = pathlib.Path(__file__).resolve().parent.parent / "crates"
# The hints, and LLVM's attributes for each.
HINTS = {"#[inline(always)]": "alwaysinline", "#[inline(never)]": "noinline", "#[inline]": "inlinehint", "#[cold]": "cold noinline"}
FUNCTION = re.compile(r"\s*(?:pub(?:\(\w+\))? )?(?:const )?fn (\w+)")
IMPL = re.compile(r"impl(?:<[^>]*>)?\s+(.+?)(?:\s+for\s+(.+?))?\s*\{?\s*$")


def named(text):
    """A type's or a trait's name without its path and its parameters."""
    return re.sub(r"<.*", "", text.strip()).split("::")[-1].strip("&")


def hints_of(crate):
    """The functions of a crate's folder that have a hint, by their names in a program, and LLVM's attributes for each."""
    found = {}
    for path in sorted((crate / "src").glob("**/*.rt")):
        module = "::".join(path.relative_to(crate / "src").with_suffix("").parts)
        prefix = crate.name if module in ("lib", "main") else f"{crate.name}::{module}"
        owner, hint = "", ""
        for line in path.read_text(encoding="utf-8").split("\n"):
            if line.startswith("impl") and (match := IMPL.match(line)):
                first, second = match.groups()
                owner, hint = (named(second) + named(first) if second else named(first)) + "::", ""
            elif line.startswith("}"):
                owner = ""
            elif line.strip() in HINTS:
                hint = hint if hint.startswith("cold") else HINTS[line.strip()]
            elif match := FUNCTION.match(line):
                if hint:
                    found[f"{prefix}::{owner if line.startswith(' ') else ''}{match.group(1)}"] = hint
                hint = ""
    return found


def all_hints():
    """The functions of all crates that have a hint."""
    found = {}
    for crate in sorted(CRATES.iterdir()):
        found |= hints_of(crate)
    return found
