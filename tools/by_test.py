"""Wrong bodies that no contract refuses: edits of tools/slow_bodies.edits/, each of which a check must refuse.

An edit has lines `file: PATH`, from the top of the repository, and after each, pairs of lines `old: TEXT` and `new: TEXT`; the old text stands in
that file exactly once. A `*` in a path stands for the rest of a crate's name, and only one file may fit it.
"""
import glob
import os


def read(path):
    with open(path, encoding="utf-8") as file:
        return file.read()


def file_of(pattern, top):
    """The one file that a path names."""
    found = glob.glob(f"{top}/{pattern}")
    if not pattern.startswith("crates/") or len(found) != 1:
        raise ValueError(f"{pattern} names {len(found)} files")
    return os.path.relpath(found[0], top)


def edited(edit, top):
    """What the files that an edit changes contain after it, by their path; a ValueError where it can't be applied."""
    texts, path, old = {}, None, None
    for line in read(edit).splitlines():
        word, _, rest = line.partition(": ")
        if word == "file":
            path = file_of(rest, top)
            texts.setdefault(path, read(f"{top}/{path}"))
        elif word == "old" and path:
            old = rest
        elif word == "new" and old:
            if texts[path].count(old) != 1:
                raise ValueError(f"an old text stands in {path} {texts[path].count(old)} times")
            texts[path], old = texts[path].replace(old, rest), None
        else:
            raise ValueError(f"what is {line!r}?")
    if not texts or old:
        raise ValueError("it has no old and new text")
    return texts


def edits(top):
    """The edits, by name."""
    return {os.path.basename(it)[:-len(".edit")]: it for it in sorted(glob.glob(f"{top}/tools/slow_bodies.edits/*.edit"))}
