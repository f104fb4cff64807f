"""Counts the places of docs/DESIGN-PASS.md in crates/*/src: python3 tools/places.py [--list]. Run at the top of a checkout."""
import glob
import re
import sys

REFUSALS = (
    "WRONG_LENGTH|UNREADABLE|UNFIT|BUSY|NO_MESSAGE|FAULT_STATE|NOT_APPLICABLE|WRONG_SIZE|NO_KEY|NO_NUMBER|NO_COUNT|IDLE|"
    "NO_ORDER|MALFORMED|NO_REFUSAL|UNVOUCHED"
)
SHAPED = (
    "Ending|Served|Begun|Taken|GivenUp|Closing|Called|QuorumSize|Followed|Report|Stepped|Shortened|Judgement|AnswerGiven|"
    "Choice|Moved|Onward"
)
LINES = {
    "1a enums of the shape of Option or Result": rf"^(pub )?enum ({SHAPED}) ",
    "1b refusals as numbers": rf"\b({REFUSALS})\b|refusal: (u8|n\b|\d)|refusal != 0",
    "1c kinds as numbers": r"\b(READ|WRITE|END|START|ANSWER|NONE|WRITES|READS|[A-Z]+(_UP)?_STEP)\b|\b(kind|rule): u8(?!::)",
    "3a while loops": r"^\s*while ",
    "3b for loops over 0..n": r"\bfor \w+ in 0u?\w*\.\.",
    "4a a field copied to its own name": r"^\s+(\w+): \1,?$",
    "4b a temporary that is a field of another": r"^\s+let \w+ = \w+\.\w+;$",
    "4c a test answered by return true or false": r"return (true|false);",
    "5a the length of an image in a requires": r"length image\.(now|old) ≡ image_size",
    "5b a readable image in a requires": r"(Legible|Open|Takable|Walk) image\.(now|old)",
    "5c a number's range in a requires": r"\(1 ≤ \w+(\.0)?\) × \(\w+(\.0)? ≤ ",
    "6 a lent buffer with a place beside it": r"fn \w+.*(&mut \[u8\], at: usize|out: &mut \[u8\])",
    "7 a function by cases over a step's kind": r"^\s+match kind \{$",
}


def found():
    sources = sorted(glob.glob("crates/*/src/**/*.rt", recursive=True))
    for path in sources:
        for number, line in enumerate(open(path, encoding="utf-8"), 1):
            if line.lstrip().startswith("//"):
                continue
            for point, pattern in LINES.items():
                if re.search(pattern, line):
                    yield point, path, number, line.rstrip()


WORDS = {"fn", "pub", "let", "mut", "if", "else", "match", "return", "for", "while", "in", "as", "true", "false", "Ok", "Err", "Some", "None"}


def functions():
    for path in sorted(glob.glob("crates/*/src/**/*.rt", recursive=True)):
        text = open(path, encoding="utf-8").read()
        for begun in re.finditer(r"^ *(?:pub )?(?:extern \"C\" )?fn (\w+)[^{]*?(?=^ *(?:requires|ensures)|^ *\{)", text, re.M | re.S):
            opened = re.compile(r"^( *)\{$", re.M).search(text, begun.end())
            if opened:
                closed = re.compile(rf"^{opened.group(1)}\}}$", re.M).search(text, opened.end())
                yield path, begun.group(1), text[opened.end() : closed.start()]


def twins():
    """Functions whose bodies, of three statements or more, are the same but for their names and numbers."""
    shapes = {}
    for path, name, body in functions():
        tokens = re.findall(r"\w+|[^\w\s]", body)
        shape = " ".join(t if t in WORDS else "0" if t[0].isdigit() else "x" if t[0].isalnum() else t for t in tokens)
        if shape.count(";") + shape.count("return") >= 2:
            shapes.setdefault(shape, []).append(f"{path}:{name}")
    return [names for names in shapes.values() if len(names) > 1]


def answers():
    paths = glob.glob("crates/*/proofs/*/**/Answers.antt", recursive=True)
    paths += glob.glob("crates/*/proofs/*/**/Invariants.antt", recursive=True)
    return len(paths), sum(len(open(p, encoding="utf-8").readlines()) for p in paths)


def main():
    rows = list(found())
    for point in LINES:
        mine = [row for row in rows if row[0] == point]
        print(f"{len(mine):5d}  {point}")
        if "--list" in sys.argv:
            for _, path, number, line in mine:
                print(f"         {path}:{number}: {line.strip()[:120]}")
    groups = twins()
    print(f"{sum(len(names) for names in groups):5d}  2 functions of one shape with another, {len(groups)} shapes")
    if "--list" in sys.argv:
        for names in groups:
            print("         " + ", ".join(names))
    files, lines = answers()
    print(f"{files:5d}  8 files of answers and invariants, {lines} lines")


main()
