#!/usr/bin/env python3
"""Respells the definitions, lemmas and types of specs/ and proofs/ as Rattle spells its own.

Definitions, lemmas, constructors and fields are in snake case, types and facts in upper camel
case; a dash stays where it joins the names of two functions, as in `take-set`. In the proofs of
functions it also respells the names that the checker makes of goals and steps. Run once, at the
top of the repository, after the toolchain's own script.
"""
import glob
import re

# Types, records and facts.
TYPES = """First-line Fits-at Named-before Next-below Next-line Part-of Stands-at To-write
Too-short""".split()

# Definitions, lemmas and constructors.
WORDS = """after-lines and-turned answer-if answer-to before-chains before-itself book-of
both-named by-fields by-letter call-for call-of call-read changed-at column-at column-below
column-bit cond-true count-inserted count-no-cells count-one count-removed count-with
count-without cut-last cut-more digit-of down-done down-more down-none drop-need each-inserted
each-removed empty-book ended-more enter-need enter-task entries-in entries-long entries-more
equal-same few-lines few-more field-refusal fields-by first-name flaw-number flip-held
flipped-bit flipped-here flipped-other flipped-row found-test front-text good-by good-name
good-name-at good-put good-retimed good-taken good-time greater-before head-good head-long
head-none head-one higher-bit holds-inserted-here holds-inserted-other holds-mid holds-none
holds-removed-here holds-removed-other holds-some in-cells-at kind-of lacks-first lacks-one-more
left-all left-more left-none less-before letter-byte letter-or life-of line-last line-more
line-refusal lined-lines lined-one lined-some lined-step lines-last lived-all lived-more
longest-name longest-text longest-time lower-bit lower-fits lowest-digit measured-front
middle-name middle-task mirrors-changed mirrors-next mirrors-none mirrors-with most-digits
most-tasks most-workers name-and-time name-at name-before name-byte name-bytes name-order
named-at narrowed-all narrowed-done narrowed-down narrowed-up next-none no-bit none-held not-held
number-after number-below number-from number-gap number-here number-is-from number-none-from
number-stop numbered-at numbers-long numeral-writes one-if one-most ordered-inserted
ordered-removed other-bit others-retimed own-bit page-of page-refusal parts-of pieces-last
pieces-some put-granted put-part record-by refusal-at refusal-page rejoined-more rejoined-pieces
retime-task row-bit same-cell second-name second-part set-inserted set-removed sheet-refusal
shifted-bit some-room split-here stood-order stood-within store-number store-refusal sum-most
sum-none table-retimed take-front ten-more text-refusal time-at turn-equal turn-greater turn-less
two-long two-names two-short unless-empty unless-some used-at used-long with-col with-here
with-needs with-tasks within-ok word-bit word-from workers-at write-all write-more write-none
writes-numeral written-long written-part xor-one""".split()

# A field of a struct has the plain name.
RENAMED = {"lines-read": "lines_read_of"}

# Names of functions and variables of src/, as the names of goals and steps cite them.
SOURCE = """carry-out copy-from-slice cut-field from-residual is-empty is-name-byte put-bytes
put-byte put-number put-refusal put-tabbed read-fields read-kind shift-down shift-up split-at
saturating-add write-digits""".split()

GENERATED = [
    (r"\boverflow-(add|sub|mul)-", r"overflow_\1-"),
    (r"\binvariant-of-", "invariant_of-"),
    (r"\bin-(ok|err)-", r"in_\1-"),
    (r"\bin-default\b", "in_default"),
]

WORD = re.compile(r"[A-Za-z][\w']*(?:-[\w']+)+")


def respelled():
    names = {word: word.replace("-", "_") for word in WORDS}
    for name in TYPES:
        first, rest = name.split("-", 1)
        names[name] = first + rest[0].upper() + rest[1:]
    names.update(RENAMED)
    return names


def main():
    names = respelled()
    texts = {}
    for pattern in ("specs/*.antt", "proofs/**/*.antt", "src/**/*.rt"):
        for path in sorted(glob.glob("crates/*/" + pattern, recursive=True)):
            with open(path, encoding="utf-8") as file:
                texts[path] = file.read()
    # Two names may not fall together: the new one may not be a word of the files already.
    used = {w for text in texts.values() for w in re.findall(r"[A-Za-z][\w']*", text)}
    for old, new in sorted(names.items()):
        if new in used and any(re.search(r"(?<![\w'-])" + re.escape(old) + r"(?![\w'-])", t) for t in texts.values()):
            print(f"look: {old} becomes {new}, which the files have already")
    for path, text in texts.items():
        changed = WORD.sub(lambda found: names.get(found.group(), found.group()), text)
        if re.search(r"/proofs/.*/", path):
            for old, new in GENERATED:
                changed = re.sub(old, new, changed)
            for name in SOURCE:
                changed = re.sub(r"\b" + name + r"\b", name.replace("-", "_"), changed)
        if changed != text:
            with open(path, "w", encoding="utf-8") as file:
                file.write(changed)


main()
