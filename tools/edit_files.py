"""Edit files: wrong bodies that the prover must refuse, as `must-fail/` and `wrong-bodies/` hold them.

A file has lines `file: PATH`, `old: TEXT` and `new: TEXT`. Each pair of old and new texts applies to what the ones before it
made of the file, in which the old text stands exactly once.
"""

import pathlib


class Unfit(Exception):
    """Why an edit does not apply."""


def applied(edit, crate):
    """Returns the texts that an edit makes of the files of a crate, by their paths in it, or raises Unfit or OSError."""
    texts, path, old = {}, None, None
    for line in pathlib.Path(edit).read_text().splitlines():
        word, _, rest = line.partition(":")
        rest = rest.removeprefix(" ")
        if word == "file":
            path = rest.strip()
        elif word == "old":
            old = rest
        elif word == "new":
            if not path or not old:
                raise Unfit("a new text stands before any file or old text")
            text = texts.get(path) or pathlib.Path(crate, path).read_text()
            if (times := text.count(old)) != 1:
                raise Unfit(f"its old text stands {times} times in {path}, and not once")
            texts[path], old = text.replace(old, rest), None
    if all(pathlib.Path(crate, path).read_text() == text for path, text in texts.items()):
        raise Unfit("it changes nothing")
    return texts
