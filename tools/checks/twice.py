"""Sentences that stand twice in the documents.

Two sentences of LEAST words and more are one where the shorter one shares at least SHARE of its trigrams of words with
the other. Headings and blocks of code are left out; of a table's row each cell is read by itself, where it has LEAST words
that are no code. Words are compared in small letters, without the signs of the page and without where links lead.
"""

import re
from collections import Counter, defaultdict

from checks import ROOT, all_documents

LEAST = 8
SHARE = 0.7


def pieces(document):
    """The paragraphs, items and cells of a document, each with the number of its first line."""
    in_code, number, lines = False, 0, []
    for at, line in enumerate([*document.read_text().splitlines(), ""], 1):
        fence = line.lstrip().startswith("```")
        starts = re.match(r"\s*([-*]|\d+\.) ", line)
        if lines and (fence or in_code or starts or not line.strip() or line.startswith(("|", "#"))):
            yield number, " ".join(lines)
            lines = []
        if fence:
            in_code = not in_code
        elif line.startswith("|") and not in_code:
            for cell in re.split(r"(?<!\\)\|", line):
                if len(re.sub(r"`[^`]*`", "", cell).split()) >= LEAST:
                    yield at, cell
        elif line.strip() and not in_code and not line.startswith("#"):
            number = number if lines else at
            lines.append(line)


def sentences(document):
    """The sentences of a document with their lines, as lists of words."""
    for number, text in pieces(document):
        text = re.sub(r"\]\([^)]*\)", " ", text)
        for sentence in re.split(r"(?<=[.!?])[\"')*_]*\s+", text):
            words = re.findall(r"[a-z0-9_]+(?:'[a-z]+)?", sentence.lower())
            if len(words) >= LEAST:
                yield number, sentence.strip(), words


def pairs():
    """Each pair that is one: both places, the share in hundredths, and the first one's text."""
    found = [(f"{document.relative_to(ROOT)}:{number}", text, {*zip(words, words[1:], words[2:])})
             for document in all_documents() for number, text, words in sentences(document)]
    having = defaultdict(list)
    for at, (_, _, trigrams) in enumerate(found):
        for trigram in trigrams:
            having[trigram].append(at)
    shared = Counter((one, other) for having_it in having.values() for k, one in enumerate(having_it) for other in having_it[k + 1:])
    for (one, other), count in sorted(shared.items()):
        share = count / min(len(found[one][2]), len(found[other][2]))
        if share >= SHARE:
            yield found[one][0], found[other][0], round(100 * share), found[one][1]


def complaints():
    for one, other, share, text in pairs():
        yield f"{one} and {other}: {share} in 100 of a sentence's trigrams: {text[:100]}"


def summary():
    return f"{sum(1 for document in all_documents() for _ in sentences(document)):,} sentences"
