"""Puts the page together: one HTML file with all that it needs.

    python3 web/assemble.py LIBRARY SCHEDULE NAME OUT

LIBRARY is the folder that ./library wasm32 makes. SCHEDULE is a file, and NAME how it is called.
The modules beside this file are put behind each other, each in a function of its own. Numbers, and
the sentences of the codes, come from LIBRARY/constants.mjs, which is made of include/jenturik.h."""

import base64
import html
import json
import os
import re
import sys

HERE = os.path.dirname(os.path.abspath(__file__))
TOP = os.path.dirname(HERE)
IMPORT = re.compile(r'^import \{([^}]*)\}\s*from "\./(\w+)\.mjs";\n', re.MULTILINE)
EXPORT = re.compile(r"^export (?:async )?(?:const|let|function|class) (\w+)", re.MULTILINE)


def read(*parts):
    with open(os.path.join(*parts), encoding="utf-8") as file:
        return file.read()


def read_bytes(path):
    with open(path, "rb") as file:
        return file.read()


def modules(library):
    """The modules by name: those of this folder, and the library's numbers and sentences."""
    found = {name[:-4]: read(HERE, name) for name in os.listdir(HERE) if name.endswith(".mjs")}
    found["constants"] = read(library, "constants.mjs")
    return found


def scoped(name, source):
    """A module as a function that is called once, and hands back what the module exports: one name
    in each export."""
    names = ", ".join(EXPORT.findall(source))
    body = IMPORT.sub(lambda m: "const {%s} = module_%s;\n" % (m.group(1), m.group(2)), source)
    body = re.sub(r"^export ", "", body, flags=re.MULTILINE)
    return "const module_%s = (() => {\n%s\nreturn { %s };\n})();\n" % (name, body, names)


def bundled(found, start):
    """The modules that `start` needs, each after those that it needs itself."""
    done, texts = [], []

    def visit(name, within):
        if name in within:
            sys.exit("page: modules import each other: %s" % " ".join(within + [name]))
        if name in done:
            return
        for _, other in IMPORT.findall(found[name]):
            visit(other, within + [name])
        done.append(name)
        texts.append(scoped(name, found[name]))

    visit(start, [])
    return "\n".join(texts)


def stories():
    """The stories, with the texts of their schedules."""
    return [dict(story, text=read_bytes(os.path.join(TOP, "examples", story["name"] + ".txt"))
                 .decode("latin-1")) for story in json.loads(read(HERE, "stories.json"))]


def in_script(text):
    """A text that stands in a script element: nothing in it ends the element."""
    return text.replace("</", "<\\/").replace("<!--", "<\\!--")


def assembled(library, schedule, name):
    parts = {
        "style": read(HERE, "style.css"),
        "library": base64.b64encode(read_bytes(os.path.join(library, "jenturik.wasm"))).decode(),
        "schedule": base64.b64encode(read_bytes(schedule)).decode(),
        "name": html.escape(name),
        "stories": in_script(json.dumps(stories())),
        "versions": in_script(json.dumps(json.loads(read(HERE, "versions.json")))),
        "script": in_script(bundled(modules(library), "start")),
    }
    return re.sub(r"\{\{(\w+)\}\}", lambda m: parts[m.group(1)], read(HERE, "page.html"))


def main(library, schedule, name, out):
    with open(out, "w", encoding="utf-8") as file:
        file.write(assembled(library, schedule, name))


if __name__ == "__main__":
    if len(sys.argv) != 5:
        sys.exit(__doc__)
    main(*sys.argv[1:])
