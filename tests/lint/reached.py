"""What a test reaches: its own text, and that of the constants, functions and types of its crate that it names, and
so on from these."""
import functools
import pathlib
import re

CRATES = pathlib.Path(__file__).resolve().parents[2] / "crates"
WORD = r"(?:pub(?:\(crate\))? )?(?:(?:const )?fn|const|static|struct|enum|type|trait|impl|mod|use)\b"
BEGIN = re.compile(rf"^(?=#|ghost |{WORD})", re.M)  # of an item, at the left border, or of an attribute
NAMED = re.compile(rf"(?:#.*\n)*(?:impl\b(?:[^{{]*? for|<[^{{]*?>)?|{WORD}) (\w+)")  # an `impl`, by its type
USE = re.compile(r"use crate::(\w+)::(?:(\w+)::)?(?:\{([^}]*)\}|(\w+(?: as \w+)?));")
STRING = re.compile(r'"(?:\\.|[^"\\])*"', re.S)
NAME = re.compile(r"(?<!(?<!\.)\.)\b[A-Za-z_]\w*")  # no field, and no method
FAILS = re.compile(r"\bassert(?:_eq|_ne)?!|\bFail::new\(|\bErr\(Wrong::")


@functools.cache
def items(crate, module):
    """The items of a module, with their texts, and what it uses of others: (module, item). Nothing if the crate has
    no such module."""
    path = CRATES / crate / "src" / f"{module}.rt"
    if not path.is_file() or f"mod {module};" not in path.with_name("lib.rt").read_text(encoding="utf-8"):
        return {}, {}
    text = re.sub(r"\s*//.*", "", path.read_text(encoding="utf-8"))
    found, attributes = {}, ""
    for part in BEGIN.split(text):
        item = NAMED.match(attributes + part)
        if item:
            found[item[1]] = found.get(item[1], "") + attributes + part
        attributes = attributes + part if part.startswith("#") else ""
    used = {}
    for use in USE.finditer(text):
        for name, alias in re.findall(r"(\w+)(?: as (\w+))?", use[3] or use[4]):
            used[alias or name] = use[1], use[2] or name
    return found, used


def on_one_line(text):
    return re.sub(r"\s*\n\s*", " ", text)


def reached(test):
    """What CRATE::MODULE::TEST reaches, on one line; nothing where it isn't there, isn't marked `#[test]`, or reaches
    nothing that can fail."""
    crate, module, name = test.split("::")
    if "#[test]" not in items(crate, module)[0].get(name, ""):
        return ""
    texts, left = {}, [(module, name)]
    while left:
        module, name = left.pop()
        found, used = items(crate, module)
        if name in used:
            left.append(used[name])
        elif name in found and (module, name) not in texts:
            texts[module, name] = found[name]
            left += [(module, word) for word in set(NAME.findall(STRING.sub("", found[name])))]
    text = on_one_line("\n".join(texts.values()))
    return text if FAILS.search(text) else ""
