"""A must-fail edit: the texts that it makes, and the functions whose bodies or proofs it changes."""
import re
from pathlib import Path

HEAD = re.compile(r"^( *)(?:pub(?:\([a-z]+\))? )?(?:final |const |unsafe |extern \"C\" )*fn (\w+)", re.M)
IMPL = re.compile(r"^impl\b(?:<.*?>(?= ))? ?(?:([\w:]+)(?:<.*>)? for )?(?:&'?\w* ?)?([\w:]+)", re.M)


class BadEdit(Exception):
    """Why an edit cannot be applied."""


def pairs_of(edit):
    """Each change of an edit: the file, its old text and the new one."""
    found, path, old = [], None, None
    for line in edit.read_text().split("\n"):
        word, _, text = line.partition(":")
        text = text.removeprefix(" ")
        if word == "file":
            path = text.strip()
        elif word == "old":
            old = text
        elif word == "new" and path and old:
            found.append((path, old, text))
            old = None
    if not found or old:
        raise BadEdit("it has no pair of an old and a new text")
    return found


def function_at(text, at):
    """The place in the text and the name of the function whose body has this place, or nothing."""
    heads = [it for it in HEAD.finditer(text, 0, at)]
    for head in reversed(heads):
        indent = head[1]
        body = re.compile(rf"^{indent}(?:\S.*)?\{{$", re.M).search(text, head.start())
        end = body and re.compile(rf"^{indent}\}}$", re.M).search(text, body.end())
        if end and body.end() < at < end.start():
            return head.start(), head[2]
    return None


def owner_of(text, at):
    """What the prover calls the impl in which a function stands: its type, and the trait's name after it."""
    if not text[at:].startswith(" "):
        return []
    impl = [it for it in IMPL.finditer(text, 0, at)][-1]
    return [impl[2].split("::")[-1] + (impl[1] or "").split("::")[-1]]


def module_of(path):
    """The module of a source file."""
    parts = Path(path).with_suffix("").parts[1:]
    return [] if parts in (("lib",), ("main",)) else [*parts]


def changed(path, text, at):
    """The function to which a place belongs: that of the body, or that of the answers. Nothing where others may rest on it.

    The prover puts a method below the module of its type, which may be in another file. So a method is named without its module."""
    parts = Path(path).parts
    if parts[0] == "proofs" and len(parts) > 2 and parts[-1] == "Answers.antt":
        return "::".join(parts[-3:-1] if parts[-3][:1].isupper() else parts[1:-1])
    found = function_at(text, at) if parts[0] == "src" else None
    return found and "::".join([*(owner_of(text, found[0]) or module_of(path)), found[1]])


class Edit:
    """An edit of a crate's folder, over the crate as it is."""

    def __init__(self, file, folder):
        self.name, self.folder, self.pairs, self.functions = file.stem, folder, pairs_of(file), set()
        self.texts = self.over({})

    def over(self, texts):
        """These texts of files, and those that the edit changes, with the edit made."""
        texts = dict(texts)
        for path, old, new in self.pairs:
            was = texts.get(path) or self.text_of(path)
            if was.count(old) != 1:
                raise BadEdit(f"its old text stands {was.count(old)} times in {path}")
            self.functions.add(changed(path, was, was.index(old) + len(old) - len(old.lstrip())))
            texts[path] = was.replace(old, new)
        return texts

    def text_of(self, path):
        file = self.folder / path
        if not path.startswith(("src/", "specs/", "proofs/")) or not file.is_file():
            raise BadEdit(f"there is no file {path}")
        return file.read_text()

    def function(self):
        """The one function that it changes, so that the prover says of that function whether it is refused, or nothing."""
        return next(iter(self.functions)) if len(self.functions) == 1 else None
