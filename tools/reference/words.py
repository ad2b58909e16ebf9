"""The words of the command line."""

OPTIONS = {
    b"check": {b"--json"}, b"run": {b"--workers", b"--schedule", b"--json"}, b"verify": set(), b"load": {b"--workers", b"--size", b"--json"},
    b"record": {b"--workers"}, b"replay": set(), b"steps": set(), b"steady": set(), b"service": {b"--workers"}, b"expand": set(),
}
FLAGS, NUMBERS = (b"--json", b"--schedule"), {b"--workers": (0, 16), b"--size": (1, 10000)}


def is_text(word):
    try:
        word.decode()
    except UnicodeDecodeError:
        return False
    return True


def in_range(name, word):
    least, most = NUMBERS[name]
    return bool(word) and all(48 <= byte <= 57 for byte in word) and least <= int(word) <= most


def said(words):
    """The word and its options, or None where the words are refused."""
    if not all(map(is_text, words)):
        return None
    rest, left, options = list(words), [], {}
    while rest:
        word = rest.pop(0)
        name, equals, value = word.partition(b"=")
        if word == b"--":
            left, rest = left + rest, []
        elif not word.startswith(b"-"):
            left.append(word)
        elif name in options or name in FLAGS and equals:
            return None
        elif name in FLAGS:
            options[name] = True
        elif name in NUMBERS and (equals or rest) and in_range(name, value if equals else rest[0]):
            options[name] = int(value if equals else rest.pop(0))
        else:
            return None
    if len(left) != 1 or set(options) - OPTIONS.get(left[0], set()) or left[0] not in OPTIONS:
        return None
    return left[0].decode(), options
