"""Files of many texts in the form of Go's txtar: the line '-- NAME --' begins the text of that name, which ends at the next such
line or at the end of the file. What stands before the first is a comment."""

import re

MARK = re.compile(rb"^-- (\S+) --\n", re.M)


def texts(path):
    """The texts of a file by name, in order."""
    data = path.read_bytes()
    marks = list(MARK.finditer(data))
    found = {}
    for mark, following in zip(marks, [*marks[1:], None]):
        name = mark[1].decode()
        if name in found:
            raise ValueError(f"{path}: two texts are named {name}")
        found[name] = data[mark.end() : following.start() if following else len(data)]
    return found


def texts_in(folder):
    """The texts of all files FOLDER/*.txtar by name, in the order of the names."""
    found = {}
    for path in sorted(folder.glob("*.txtar")):
        for name, text in texts(path).items():
            if name in found:
                raise ValueError(f"{path}: a text of another file is named {name} too")
            found[name] = text
    return dict(sorted(found.items()))
