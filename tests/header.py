"""What include/pbfdl.h declares."""

import re

from library import HEADER


def declarations(header=HEADER):
    """Each function of the header with its types: what it returns, and its parameters."""
    text = re.sub(r"/\*.*?\*/", "", header.read_text(), flags=re.S)
    found = {}
    for result, name, words in re.findall(r"^(\w+) (fdl_\w+)\(([^)]*)\);", text, re.M | re.S):
        parameters = [re.fullmatch(r"(.*?)(\w+)", it.strip(), re.S)[1].strip() for it in words.split(",")]
        found[name] = [result, *parameters]
    return found
