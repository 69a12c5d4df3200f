"""How an edit is read: as `rt must-fail` reads it. Used by `.ci/all-edits` and `.ci/edits-page`."""
import os


def applied(edit, folder):
    """The files of the crate in `folder` that an edit changes, with their new text. An `old:` text must stand exactly once when its turn comes."""
    texts, file, old = {}, None, None
    for line in open(edit, encoding="utf-8").read().splitlines():
        if line.startswith("file: "):
            file = os.path.join(folder, line[6:])
            texts.setdefault(file, open(file, encoding="utf-8").read())
        elif line.startswith("old: "):
            old = line[5:]
        elif line.startswith("new:"):
            if texts[file].count(old) != 1:
                raise ValueError(f"an 'old:' text stands {texts[file].count(old)} times in {file}")
            texts[file] = texts[file].replace(old, line[4:].removeprefix(" "))
    if not texts:
        raise ValueError("it has no 'old:' and 'new:' pair")
    return texts
