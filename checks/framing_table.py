"""The texts of framing.txt, as the checks of this folder read them."""

import concurrent.futures
import os
import re
import sys

TABLE = os.path.join(os.path.dirname(os.path.abspath(__file__)), "framing.txt")
USUAL = ("32768", "1048576")
LETTERS = {"r": b"\r", "n": b"\n", "\\": b"\\"}


def bytes_of(text):
    """The bytes that a text with escapes stands for."""
    text = re.sub(r"\\\{(\d+)\*(.*?)\}", lambda found: found[2] * int(found[1]), text)
    parts = re.split(r"\\(x[0-9a-f]{2}|[rn\\])", text)
    plain, escapes = (part.encode("ascii") for part in parts[::2]), parts[1::2]
    stood = [LETTERS.get(escape) or bytes.fromhex(escape[1:]) for escape in escapes] + [b""]
    return b"".join(piece + escape for piece, escape in zip(plain, stood))


def rows():
    """The number of a text's line, its limits, its bytes and the wanted lines."""
    limits, row, found = USUAL, None, []
    for number, line in enumerate(open(TABLE, encoding="ascii"), 1):
        mark, text = line[:1], line[2:].rstrip("\n")
        if mark == "!":
            limits = tuple(text.split(" "))
        elif mark == "<":
            row = (number, limits, bytes_of(text), [])
            found.append(row)
        elif mark == ">":
            row[3].append(text)
        elif row:
            limits, row = USUAL, None
    return found


def compare(faults_of):
    """Runs each text by a function that tells what is otherwise than written, and how many runs there were. Prints both of all
    texts, and ends the check."""
    texts = rows()
    with concurrent.futures.ThreadPoolExecutor(4) as pool:
        found = list(pool.map(faults_of, texts))
    faults = [fault for some, _ in found for fault in some]
    print("\n".join([*faults, f"{len(texts)} texts, {sum(count for _, count in found)} runs, {len(faults)} otherwise than written"]))
    sys.exit(bool(faults))
