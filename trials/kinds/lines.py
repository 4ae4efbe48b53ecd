"""A line as docs/SESSIONS.md judges it: its words, or its first fault."""
import re

NO_LINE, NO_NAME, NO_NUMBER = "no 25 line", "no 1 name", "no 2 number"
LONGEST = 200
NAME = re.compile(rb"[a-z][a-z0-9-]{0,15}")
NUMBER = re.compile(rb"[0-9]{1,10}")
# The ranges of numbers. A node's is that of the ring.
RANGES = {b"T": (1, 999_999_999), b"B": (0, 999_999_999), b"NO": (0, 9_999_999_999), b"N": (2, 16), b"K": (1, 4),
          b"C": (1, 6), b"BYTE": (0, 255), b"CAP": (4_096, 1_048_576)}
# Each form: capital letters are numbers or a group, a word with `|` is one of these, and all else stands as it is.
RING = [b"ring N", b"ring N eager|lazy", b"ring N eager|lazy CAP"]
RUNNING = [b"stand I G T B", b"who I G T", b"latest I G", b"deliver all", b"deliver I NO", b"credit I NO", b"flush I", b"crash I",
           b"checkpoint I", b"show I", b"audit", b"stop I K old|new", b"stop I K fill BYTE", b"stop I checkpoint C old|new",
           b"stop I checkpoint C fill BYTE", b"retire I G T"]
SESSION = [b"stand G T B", b"who G T", b"latest G", b"retire G T", b"bye"]


def lines_of(text: bytes) -> list[bytes]:
    """The lines of a script. A carriage return before a line feed is dropped, and kept at the end of a last line without one."""
    *lines, last = text.split(b"\n")
    return [line.removesuffix(b"\r") for line in lines] + ([last] if last else [])


def words_of(line: bytes) -> list[bytes]:
    return [word for word in line.split(b" ") if word]


def fits(form: list[bytes], words: list[bytes]) -> bool:
    """Whether the words are as many, and the fixed ones among them those of the form."""
    return len(form) == len(words) and all(part.isupper() or word in part.split(b"|") for part, word in zip(form, words))


def fault_of(part: bytes, word: bytes, nodes: int) -> str | None:
    """What is wrong with a word at this part of a form."""
    if not part.isupper():
        return None
    if part == b"G":
        return None if NAME.fullmatch(word) else NO_NAME
    low, high = RANGES.get(part, (1, nodes))
    return None if NUMBER.fullmatch(word) and low <= int(word) <= high else NO_NUMBER


def judge(line: bytes, forms: list[bytes], nodes: int = 16) -> str | list[str]:
    """The words of the line, or its first fault."""
    words = words_of(line)
    form = next((form for form in map(bytes.split, forms) if fits(form, words)), None)
    if len(line) > LONGEST or form is None:
        return NO_LINE
    fault = next((fault for part, word in zip(form, words) if (fault := fault_of(part, word, nodes))), None)
    return fault or [word.decode("ascii") for word in words]
