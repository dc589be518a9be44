#!/usr/bin/env python3
"""Spells this repository's own words in snake case: definitions, lemmas and module names of proofs that had dashes.

usage: python3 tools/respell.py      at the top of the repository, once, after the toolchain's own script for older repositories

Only whole names outside of texts and comments are turned; names that Rattle makes keep their dashes: those of goals and invariants,
and those of the steps of a function, which follow a point.
"""

import os
import re

NAMES = set(
    """
    add-builtin add-builtins add-converter add-name add-symbol add-type all-digit at-colon at-end at-number
    at-space below-max builtin-names builtin-type by-symbol cause-number child-kind code-line colon-after
    const-line constructor-at converter-of converter-records converts-keeps counted-on definition-rules
    drop-clipped empty-is expand-line expr-child expr-counts expr-names extractor-template far-too-large
    filled-end first-is flags-at flags-end flags-on flat-join flat-next forest-front going-unfit going-wide
    here-is here-needed host-kind-at host-kinds host-line ident-record inner-looked-up is-definition is-tree
    item-nth keyword-at kind-by kind-of last-root lawful-has-none lawful-join lawful-split length-next
    let-def limit-line lit-line literal-by literal-kind-at literal-kinds make-line no-colon no-flags
    node-names none-from-length none-there not-numeral nowhere-needed nth-map number-fault numbered-at
    numbers-at numbers-end of-kind one-bad one-definition one-digit option-names other-kind outer-looked-up
    part-clipped pattern-counts pattern-names report-of row-kind-at row-kinds rule-head rule-name run-line
    same-sym sign-flags some-none source-line split-same symbol-line symbol-of table-number take-clipped
    taken-apart template-counts template-of template-rules term-by-name term-id term-kind term-line
    term-looked-up term-tag-at term-tags tree-front tree-size type-by-name type-id type-kind type-kind-at
    type-kinds type-line type-of walk-complete walk-decides walk-sound with-converters with-faults with-flag
    with-inner with-minus with-outer with-symbols with-term with-text with-types without-minus
    """.split()
)

# comments, characters and texts are passed over; a name is a run of letters, digits, underscores, primes and dashes
TOKEN = re.compile(
    r"""(?P<skip>//[^\n]*|--[^\n]*|b?'(?:\\[^\n]|[^'\\\n])'|b?"(?:\\.|[^"\\])*")|(?P<name>(?<!\.)[^\W\d][\w']*(?:-[\w']+)*)""",
    re.S,
)


def turn(found):
    name = found.group("name")
    return name.replace("-", "_") if name in NAMES else found.group(0)


def main():
    changed = 0
    for folder, dirs, files in os.walk("crates"):
        dirs[:] = sorted(d for d in dirs if d not in ("out", "target"))
        for file in sorted(files):
            if not file.endswith((".rt", ".antt")):
                continue
            path = os.path.join(folder, file)
            with open(path, encoding="utf-8") as text:
                old = text.read()
            new = TOKEN.sub(turn, old)
            if new != old:
                changed += 1
                with open(path, "w", encoding="utf-8") as text:
                    text.write(new)
    print(f"respell: {changed} files changed")


if __name__ == "__main__":
    main()
