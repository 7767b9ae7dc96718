"""Makes a wrong page: NEW in the place of OLD, which stands in it exactly once.

    python3 tests/browser/wrong.py PAGE OUT OLD NEW"""

import sys


def main(page, out, old, new):
    with open(page, encoding="utf-8") as file:
        text = file.read()
    if text.count(old) != 1:
        sys.exit("wrong.py: %r stands in %s %d times" % (old, page, text.count(old)))
    with open(out, "w", encoding="utf-8") as file:
        file.write(text.replace(old, new))


if __name__ == "__main__":
    main(*sys.argv[1:])
