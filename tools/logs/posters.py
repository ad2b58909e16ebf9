"""The posters that a log tells of: for each source one, with its messages in their order."""
from inputs import Wrong
from reference import lines

MOST_SOURCES, MOST_POSTS = 16, 10000


def source_and_place(word):
    """The numbers of `sA.K`, or None."""
    pieces = word[1:].split(b".") if word[:1] == b"s" else []
    numbers = [lines.number(piece) for piece in pieces]
    return tuple(numbers) if len(numbers) == 2 and None not in numbers else None


def scripts_of(text):
    """For each source the words behind `post sA.K`, in the order of the log."""
    found = {}
    for number, line in enumerate(lines.cut(text), 1):
        words = lines.words(line)
        if words == [b"report", b"1"]:
            break
        name = source_and_place(words[1]) if len(words) > 3 and words[0] == b"post" else None
        if not name:
            continue
        source, place = name
        script = found.setdefault(source, [])
        if place != len(script):
            raise Wrong(f"line {number}: message {place} of source {source}, and {len(script)} is due: each source counts its messages from 0, by ones")
        script.append(b" ".join(words[2:]).decode("ascii", "backslashreplace"))
    return found


def written(found, taken):
    """The lines of the posters. `taken` are names that the wiring has already."""
    count = max(found, default=-1) + 1
    if count > MOST_SOURCES:
        raise Wrong(f"source {count - 1}: sources have the numbers from 0 to {MOST_SOURCES - 1}")
    posts = sum(map(len, found.values()))
    if posts > MOST_POSTS:
        raise Wrong(f"{posts} messages from outside, and a wiring has {MOST_POSTS} at most: judge the log in pieces")
    for source in range(count):
        name = next(it for it in (f"{stem}{source}" for stem in ("source", "outside", "log-source-")) if it not in taken)
        yield f"poster {name}\n"
        for post in found.get(source, []):
            yield f"  post {post}\n"
        yield "end\n"
