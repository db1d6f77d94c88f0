#!/usr/bin/env python3
"""Counts words that documents and comments should avoid, and fails if one of them occurs more often than its limit.

    english.py               prints a table: each word, how often it occurs, its limit, and what to write in its place
    english.py --list WORD   prints each place where a word of the table occurs
    english.py --update      makes today's counts the limits, in english.limits

It reads README.md, docs/*.md, crates/*/CALLING.md, and the comments of *.rt and *.antt files, but no code. A pattern can't tell every
right use of a word from a wrong one, so limits aren't 0. They keep the words from coming back."""
import re
import sys
from pathlib import Path

ROOT = Path(__file__).resolve().parent.parent
LIMITS = Path(__file__).with_suffix(".limits")
FILES = ("README.md", "docs/*.md", "crates/*/CALLING.md", "crates/*/README.md", "crates/*/src/**/*.rt", "crates/*/specs/**/*.antt", "crates/*/proofs/**/*.antt")

# The pattern of a comment, by the file's suffix.
COMMENTS = {".rt": r"(?:^|\s)//[/!]? ?(.*)", ".antt": r"(?:^|\s)-- ?(.*)"}

# Articles and pronouns that begin an object: before one of them, `names` is a verb and not a noun.
OBJECT = r"(?:an?|the|its?|no|none|nothing|what|this|that|another|each|all|one|two|them)"

# A word, the pattern that finds it, and what to write instead. A pattern with a capital letter is case-sensitive.
WORDS = (
    ("stands", r"stands?|stood|standing", "is, lies, lives in"),
    ("names the", rf"names? {OBJECT}|is named by", "points to, refers to"),
    ("leads", r"leads?|led", "points to, refers to, returns"),
    ("holds the", rf"holds? {OBJECT}", "contains, has"),
    ("says what", r"says? (?:what|how|which|whether|where|when|so|of)|(?:is|are) said", "specifies, states, describes"),
    ("so many", r"so many", "n, that many"),
    ("is none", r"(?:is|are|was|were|be) none", "there is no, isn't"),
    ("goes on", r"(?:goes|go|went|going|gone) on", "continues"),
    ("Where ..,", r"Where", "If .., at the start of a sentence"),
    ("where there is", r"where there (?:is|are|was|were|isn't|aren't)", "if there is"),
    ("only where", r"(?:only|exactly|just|also|even|but|not) where", "only if, exactly if"),
    ("what is left", r"what (?:is|was) left", "the rest"),
    ("want of room", r"(?:for )?want of", "out of memory, for lack of"),
    ("that of", r"(?:that|those) of", "repeat the noun"),
    ("of such as", r"(?:of|also|by|to|for) such as", "name the things"),
)


def prose(path):
    """The lines of a document, or the comments of a file. Lines of code become `.`, so line numbers stay the same."""
    lines, fenced = [], False
    comment = COMMENTS.get(path.suffix)
    for line in path.read_text(encoding="utf-8").splitlines():
        if comment:
            found = re.search(comment, line)
            line = found[1] if found else "."
        elif line.startswith("```"):
            fenced = not fenced
        elif fenced or line.startswith("    "):
            line = "."
        lines.append(re.sub(r"`[^`]*`", "``", line))
    return "\n".join(lines)


def texts():
    """Each file with its text."""
    return [(path.relative_to(ROOT), prose(path)) for pattern in FILES for path in sorted(ROOT.glob(pattern)) if "out" not in path.parts]


def places(pattern, files):
    """The places of a pattern: the file, the line, and the words there."""
    spaced = pattern.replace(" ", r"\s+")
    find = re.compile(rf"(?<![\w-])(?:{spaced})(?![\w-])", re.IGNORECASE if pattern.islower() else 0)
    for path, text in files:
        for found in find.finditer(text):
            yield path, text.count("\n", 0, found.start()) + 1, " ".join(found[0].split())


def read_limits():
    lines = LIMITS.read_text(encoding="utf-8").splitlines() if LIMITS.exists() else []
    return {word: int(count) for count, word in (line.split(" ", 1) for line in lines)}


def show_places(word):
    patterns = {it: pattern for it, pattern, _ in WORDS}
    if word not in patterns:
        raise SystemExit(f"no such word; the words are: {', '.join(patterns)}")
    for path, line, found in places(patterns[word], texts()):
        print(f"{path}:{line}: {found}")


def compare(update):
    """Prints the table. Returns how many words occur too often."""
    files = texts()
    counts = {word: len(list(places(pattern, files))) for word, pattern, _ in WORDS}
    if update:
        LIMITS.write_text("".join(f"{count} {word}\n" for word, count in counts.items()), encoding="utf-8")
    limits = read_limits()
    over = 0
    print(f"{'word':<16}{'count':>6}{'limit':>7}  write instead")
    for word, _, instead in WORDS:
        limit = limits.get(word, 0)
        over += counts[word] > limit
        mark = f"   TOO MANY: english.py --list '{word}'" if counts[word] > limit else ""
        print(f"{word:<16}{counts[word]:>6}{limit:>7}  {instead}{mark}")
    return over


def main():
    arguments = sys.argv[1:]
    if len(arguments) == 2 and arguments[0] == "--list":
        show_places(arguments[1])
        return 0
    if arguments not in ([], ["--update"]):
        raise SystemExit(__doc__)
    return 1 if compare(update=bool(arguments)) else 0


if __name__ == "__main__":
    sys.exit(main())
