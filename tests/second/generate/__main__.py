"""Test inputs. The same seed always gives the same bytes.

    python3 generate [--state | --run | --fresh | --load | --inuse | --free] SEED [COUNT [DIR]]

COUNT seeds from SEED on (1 if not told), each into a file SEED.txt in DIR, or one
after the other to standard output. Without a mode: schedules."""

import os
import sys

sys.dont_write_bytecode = True

from states import MODES, text_of


def main(*words):
    mode, words = (words[0], words[1:]) if words and words[0] in MODES else ("", words)
    if not 1 <= len(words) <= 3 or not all(word.isdigit() for word in words[:2]):
        sys.exit(__doc__)
    for seed in range(int(words[0]), int(words[0]) + int((*words, 1)[1])):
        if len(words) < 3:
            sys.stdout.buffer.write(text_of(mode, seed))
        else:
            os.makedirs(words[2], exist_ok=True)
            with open(os.path.join(words[2], "%d.txt" % seed), "wb") as file:
                file.write(text_of(mode, seed))


if __name__ == "__main__":
    main(*sys.argv[1:])
