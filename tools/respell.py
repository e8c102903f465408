#!/usr/bin/env python3
"""Brings the repository's own definitions and lemmas to one spelling: run at the top, after the kit's port.py. A second run changes nothing.

A function, a lemma and a field of a record are in snake case, a fact and a type in camel case, a module beside neither is untouched.
Whole words alone turn, in specs/, proofs/ and the clauses of src/, and in the pages named below; strings, inputs and outputs stay.
"""

import os
import re

# functions, fields and lemmas that were in camel case
WORDS = """
atMost byPlace byRank countTold cutCount cutPlace cutRecords cutRows cutState doneOr emptyRecord fetchedOr fetchedRows fetchesIn
firstCalls foundedBy gradeIn gradeOf gradeTold greatestOf heldTrue holdsAt ifAccepted isCut isCutAt keptAll keptRows kindIn
leastAmong leastBelow markedRecord mostPlaces pairAtMost pairOrder pairsOf performedOf pointRead pointText pointTexts rankAmong
ranksOf recordOf rowFor rowsIn rulesIn setsIn stableBelow stableSets standingOf stateIn toldAll toldFetch valueRead weighedAt
wordText wordTexts asTrue pointRead-value valueRead-le wordAt-rank wordBack-text length-cutRecords length-cutRows
""".split()

# facts that were named with dashes
FACTS = """
Adding-says Bottom-conflict-iff-some-stable Bottom-objection-iff-stable Bottom-objection-iff-support Collect-says
Conflict-is-held-grade Conflict-is-least-objection Consequences-are-least-fixpoint Consequences-settle Disjoint-says
Fetched-are-lowest-stable Founded-test-decides Grades-are-necessities Grades-are-readings Has-is-weight Held-are-lawful
Least-fixpoint Listed-are-all-stable Lists-stable Necessity-is-consequence Necessity-is-least-objection No-more-iff-none-left
Others-says Reading-settles Reduct-says Runs-agree Same-atoms Stable-iff-founded-unbroken Stable-iff-support Stable-on-any-scale
Stable-reading-is-fixpoint Step-is-monotone Within-says
""".split()

# fields of records that were named with dashes
FIELDS = """
holds-top told-as state-as rest-as rules-length rows-length rules-rest rows-rest no-set no-fetch answers-rest rows-kept
low-present low-absent keeps-present keeps-absent
""".split()

# lemmas and definitions in proofs/ that a dash joined to a plain word; it stays where it joins two names, as in length-places
LEMMAS = """
above-or-below absent-fits absent-upper active-usable active-usable-for adding-in admissible-keeping agrees-wanted
alike-applicable alike-derived alike-fits alike-founded alike-heads alike-reduct alike-stable alike-sym alike-true
alike-unbroken alike-weigh alike-weighted all-sized all-taken an-order and-apart and-sub and-turn answer-tells
apart-and apart-and-at apart-sub apart-sym applicable-in applicable-sub applied-fits are-necessities are-readings
asked-fresh asked-long asked-short asked-stale at-atom at-empty below-stages below-upper bit-of bot-of
bottom-iff-stable branch-later broken-in candidate-fitting cond-mono cond-most consequences-settle copied-past
cut-lengths cut-more cuts-same decided-absent decided-open decided-present decides-breaks decides-broken
decides-disjoint decides-founded decides-single decides-within derived-in derived-rises derived-weaker drop-of-set
emptied-more empty-at empty-founded empty-place ended-more enter-grade enter-head enter-ok enter-out enter-taken
entry-cut every-has false-from fetch-does fetch-kind fetch-next fetch-reply fetched-are-lowest fewest-more fill-at
fill-length fired-grounded first-at_most first-listed fits-absent fits-any fits-looser fits-present fitting-below
follows-in found-absent found-list founded-in founded-sub free-of-conflict from-adequate from-ahead from-two
front-fetched front-rows front-told grade-among graded-at graded-in grades-a grades-b grades-readings greatest-failed
greatest-in grounded-from grounded-more grounded-upper has-and has-cases has-or has-past has-weight has-without
head-forced heads-fired heads-in heads-right held-against holds-here in-adding in-none in-or in-others in-sets
in-shuffled is-conflict is-least-objection keeps-from keeps-in last-two later-found later-none le-by-cuts leaf-least
least-absent least-in least-is-least least-miss least-present least-split left-falls left-more lesser-of-top
lesser-turn lists-stable mend-next mend-reply model-breaks-none model-is-unopposed model-more more-none narrowed-then
narrowed-upper narrowed-weaker necessity-down necessity-is-grade neg-fails new-accepted next-accepted next-is
next-record no-conflict no-more-iff no-single none-clash none-if none-opposes none-upper none-weaker not-both
not-forced nth-among objection-unfounded open-part opened-tables opened-then option-weaker or-high or-in-left
or-in-right or-low or-more or-out others-more others-twice out-from own-free own-none own-set parse-other parse-text
parsed-is passed-more passed-wait place-count place-cut place-held places-are places-fit pos-fails power-and
present-fits rank-more rank-past ranked-there ranks-at ranks-from record-held records-more reduct-dropped reduct-in
reducts-alike reply-accepted rewind-reply rising-more row-held rows-from same-atoms same-by-cuts second-at_most
settled-last settled-upper settles-by silent-more single-from single-power so-many some-open stable-frees stable-from
stable-is-below stable-is-unopposed stable-on-truth stable-supports stable-there stays-as step-dropped step-monotone
step-more step-raised stepped-all stepped-dropped stepped-none stepped-raised steps-more steps-past strike-empty
strike-ok strike-out sub-and sub-and-at sub-applicable sub-founded sub-le supports-stable swept-more take-nothing
take-of-set tally-less tally-mono tally-more tally-past test-one then-present then-stands those-in those-less
those-mono those-past to-adequate told-front trailing-found trailing-low trailing-lowest turn-other turn-same
twin-breaks twin-of unopposed-breaks-none unopposed-founded unopposed-is-model unopposed-is-stable upto-below upto-in
upto-out usable-active waiting-out wanted-agrees wanted-turns weighted-more with-upper within-from without-less
word-plain word-short word_back-text worst-falls worst-more worst-past worst-raised
""".split()

# names that would fall together with another one, or that cite a word with a new name
OTHERS = {
    "pair-at-most": "pair_at_most_lem",
    "first-at-most": "first-at_most",
    "second-at-most": "second-at_most",
    "as-true": "map-as_true",
    "cut-records": "cut_records_lem",
    "cut-rows": "cut_rows_lem",
    "grade-in": "grade_in_lem",
    "grade-set-other": "grade-set_other",
    "open-neg": "open_neg_lem",
    "open-pos": "open_pos_lem",
    "reading-settles": "reading_settles_lem",
    "getD-pairs": "get_or-pairs",
    "getD-places": "get_or-places",
    "getD-same": "get_or-same",
}

PAGES = ["README.md", "docs/ARCHITECTURE.md", "docs/CALLS.md", "docs/DECISIONS.md", "docs/PROMISES.md", "docs/SCALES.md", "docs/SEMANTICS.md"]


def snake(word):
    return re.sub(r"([a-z0-9])([A-Z])", lambda m: m[1] + "_" + m[2].lower(), word)


def camel(word):
    return "".join(part[0].upper() + part[1:] for part in word.split("-"))


TABLE = {w: snake(w) for w in WORDS} | {w: camel(w) for w in FACTS} | {w: w.replace("-", "_") for w in FIELDS + LEMMAS} | OTHERS
# a name that a row brings to another row's gets the last one at once
TABLE = {w: TABLE.get(v, v) for w, v in TABLE.items()}
WORD = re.compile(r"(?<![\w'-])(" + "|".join(re.escape(w) for w in sorted(TABLE, key=len, reverse=True)) + r")(?![\w'-])")
QUOTED = re.compile(r'"(?:[^"\\\n]|\\.)*"')


def turn(text):
    return WORD.sub(lambda m: TABLE[m[1]], text)


def outside_strings(text):
    parts, at = [], 0
    for m in QUOTED.finditer(text):
        parts += [turn(text[at : m.start()]), m[0]]
        at = m.end()
    return "".join(parts) + turn(text[at:])


def main():
    paths = [(p, turn) for p in PAGES if os.path.exists(p)]
    for folder, dirs, files in os.walk("crates"):
        dirs[:] = sorted(d for d in dirs if d != "out")
        paths += [(os.path.join(folder, f), outside_strings) for f in sorted(files) if f.endswith((".rt", ".antt"))]
    for path, how in paths:
        with open(path, encoding="utf-8") as f:
            old = f.read()
        new = how(old)
        if new != old:
            with open(path, "w", encoding="utf-8") as f:
                f.write(new)
            print(path)


if __name__ == "__main__":
    main()
