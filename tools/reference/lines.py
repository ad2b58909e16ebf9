"""Lines, words, numbers and names of the texts."""

LETTERS = b"abcdefghijklmnopqrstuvwxyzABCDEFGHIJKLMNOPQRSTUVWXYZ"
DIGITS = b"0123456789"


def cut(text):
    """The lines without their LF; what stands behind the last LF is a line where it isn't empty."""
    lines = text.split(b"\n")
    return lines if lines[-1] else lines[:-1]


def is_clean(line):
    return all(33 <= byte <= 126 or byte in b" \t\r" for byte in line)


def words(line):
    """The longest runs of the bytes 33 to 126."""
    return bytes(byte if 33 <= byte <= 126 else 32 for byte in line).split()


def is_skipped(found):
    return not found or found[0].startswith(b"#")


def is_name(word):
    return 1 <= len(word) <= 16 and word[0] in LETTERS and all(byte in LETTERS + DIGITS + b"_-" for byte in word)


def number(word):
    """The value of decimal digits below 2^64, or None."""
    if word and all(byte in DIGITS for byte in word) and int(word) < 1 << 64:
        return int(word)
    return None


def before(text, first):
    """The bytes before the first line whose first word is that one, how many lines they are, and whether there is such a line."""
    at = 0
    for place, line in enumerate(cut(text)):
        if words(line)[:1] == [first]:
            return text[:at], place, True
        at += len(line) + 1
    return text, len(cut(text)), False
