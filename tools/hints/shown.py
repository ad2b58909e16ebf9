"""Lines of a text as they are shown, and the nearest of some words."""
import difflib

from reference import lines

LONGEST = 160


def plain(text):
    """The bytes as printable characters."""
    return "".join(chr(byte) if 32 <= byte < 127 else f"\\x{byte:02x}" for byte in text)


def line(all_lines, number):
    """The line with its number, cut where it is too long."""
    text = plain(all_lines[number - 1].strip().replace(b"\t", b" ")) if number <= len(all_lines) else ""
    return f"    {number} | {text if len(text) <= LONGEST else text[:LONGEST] + ' ..'}"


def a(kind):
    """The name of a kind with its article."""
    return ("an " if kind[:1] in "aeio" else "a ") + kind


def near(word, choices):
    """The one of the choices that was meant, if one is near."""
    choices = list(choices)
    by_case = [it for it in choices if it.lower() == word.lower()]
    found = by_case or difflib.get_close_matches(word, choices, 1, 0.6)
    return f": do you mean '{found[0]}'?" if found else ""


def first_line(all_lines, *begins):
    """The number of the first line that begins with these words, or None."""
    wanted = [word.encode() for word in begins]
    return next((number for number, text in enumerate(all_lines, 1) if lines.words(text)[:len(wanted)] == wanted), None)
