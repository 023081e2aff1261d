"""Respells this repository's own definitions and lemmas as today's Rattle wants them: words in snake case, types in camel
case. Run once, at the top, after the toolchain's port.py: python3 tools/respell.py. Comments, strings and code keep their words."""

import glob
import re

# types, and facts stated as types
TYPES = """
After-post All-records Form-kept Forms-agree In-range Never-over No-record One-record Placed-words Read-back Some-record
Whole-lines Worked-cases Worked-records Written-back
"""

# definitions, their fields and variants, lemmas, and local names
WORDS = """
adds-push adds-removed after-placing all-records all-zero and-then-twice as-digits asked-alike asked-alone asked-behind
asked-by-receiver asked-by-sender asker-receives asker-sends at-outcome bag-push bag-removed bench-of bit-lowest bit-of-bits
bits-more bits-of-bit bits-room board-limit bound-more by-answers bytes-again bytes-of-words call-is call-of call-questions
carried-out carries-nothing char-of-digit copies-again decides-zero digit-char digit-of digit-of-char digits-none
empty-list ends-here filled-all filled-one first-no form-broken form-questions forms-agree front-closed front-written
goes-on-refused has-parties hops-too-many in-range is-empty kind-back kind-form kind-number kind-numbered kind-too-high
kind-too-low kind-unknown kit-call kit-numbers kit-of largest-limit last-address layer-questions length-is
length-record length-word-bytes letter-A letter-D letter-K letter-L letter-P letter-S letter-X limit-enough limit-of
limit-questions limit-too-low line-long link-number link-of link-questions looked-all looked-more looked-none
making-questions message-back message-in message-is message-questions messages-on most-hops names-K names-kit never-over no-K
no-boards no-entry no-hops no-kit nothing-waits number-back number-back-of-kind number-below number-of-kind numeral-after
numeral-all numeral-more numeral-none numeral-push one-byte-over one-byte-short one-record other-hops other-kind outcome-of
page-below page-inside page-limit page-of past-address place-numbers place-questions placed-table placed-tables placed-words
post-questions posted-within record-accepted record-at record-count record-length record-questions record-wide records-from
records-more refused-form refused-line room-asked same-message set-bits set-of-bits shaped-placing shaped-put shaped-start
side-by-side-before size-questions some-tables start-entry start-kit start-state start-table state-of still-refused
take-more-of taken-within three-is three-parts typed-in unused-again unused-broken unused-byte unused-decide
unused-zero used-byte was-done when-test whole-lines with-member with-table-word with-word with-word-at without-member
word-at word-bytes word-bytes-push word-place word-put words-again words-all words-in worked-cases worked-grant worked-record
worked-records writing-questions zero-all zeros-back
"""

NEW = {w: "".join(p[0].upper() + p[1:] for p in w.split("-")) for w in TYPES.split()}
NEW.update({w: w.replace("-", "_").lower() for w in WORDS.split()})
WORD = re.compile(r"(?<![\w'-])(" + "|".join(map(re.escape, sorted(NEW, key=len, reverse=True))) + r")(?![\w'-])")
# what is left as it stands: comments, strings and characters
KEPT = {".rt": r"//[^\n]*|b?\"(?:\\.|[^\"\\])*\"|b?'(?:\\.|[^'\\])'", ".antt": r"--(?=\s)[^\n]*"}


def respelled(text, kept):
    parts = re.split(f"({kept})", text)
    return "".join(p if i % 2 else WORD.sub(lambda m: NEW[m[1]], p) for i, p in enumerate(parts))


def main():
    for ending, kept in KEPT.items():
        for path in sorted(glob.glob(f"crates/*/s*/**/*{ending}", recursive=True) + glob.glob(f"crates/*/proofs/**/*{ending}", recursive=True)):
            with open(path, encoding="utf-8") as f:
                old = f.read()
            new = respelled(old, kept)
            if new != old:
                with open(path, "w", encoding="utf-8") as f:
                    f.write(new)


if __name__ == "__main__":
    main()
