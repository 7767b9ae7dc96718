"""What compare, bites and figures share. Nothing is written into this folder."""

import hashlib
import os
import signal
import subprocess
import sys
import tempfile

sys.dont_write_bytecode = True
HERE = os.path.dirname(os.path.abspath(__file__))
MODEL = os.path.join(HERE, "model")
sys.path.insert(0, os.path.join(HERE, "generate"))

TOO_LONG = 600      # seconds for one input
SEEDS, LINE_SEEDS = 300, 20     # of bites: for schedules, and for the other modes


def sources():
    """The model's files: name and text."""
    return {name: open(os.path.join(MODEL, name), encoding="utf-8").read()
            for name in sorted(os.listdir(MODEL)) if name.endswith(".rs")}


def compiled(files, work, options):
    """The program made from the files, which are put into the folder `work`."""
    for name, content in files.items():
        with open(os.path.join(work, name), "w", encoding="utf-8") as file:
            file.write(content)
    made = os.path.join(work, "made")
    subprocess.run(["rustc", *options, "-A", "warnings", os.path.join(work, "main.rs"),
                    "-o", made], check=True)
    return made


def build(files, folder, options=("-O",)):
    """The program compiled from the files in the folder, if it is not there yet. Its
    name holds a sum of the files, so that a changed file is compiled anew."""
    text = "\0".join(name + "\0" + files[name] for name in sorted(files)) + " ".join(options)
    program = os.path.join(folder, "model-" + hashlib.sha256(text.encode()).hexdigest()[:16])
    if not os.path.exists(program):
        os.makedirs(folder, mode=0o700, exist_ok=True)
        with tempfile.TemporaryDirectory(dir=folder) as work:
            os.replace(compiled(files, work, options), program)
    return program


def true_model():
    """In the folder $SECOND_BUILD, or else in one of the system's temporary folder."""
    default = os.path.join(tempfile.gettempdir(), "second-%d" % os.getuid())
    return build(sources(), os.environ.get("SECOND_BUILD", default))


def answer(command, text):
    """What a command (a list, or a string for the shell) writes, and its complaints."""
    pipe = subprocess.PIPE
    process = subprocess.Popen(command, shell=isinstance(command, str), stdin=pipe, stdout=pipe,
                               stderr=pipe, start_new_session=True)
    try:
        return process.communicate(text, TOO_LONG)
    except subprocess.TimeoutExpired:
        os.killpg(process.pid, signal.SIGKILL)
        return process.communicate()[0], b"stopped after %d seconds" % TOO_LONG


def seeds(mode):
    """How many seeds bites uses in a mode; the schedules are the empty one."""
    return LINE_SEEDS if mode else SEEDS


def close(passed, failed):
    print("%d passed, %d failed" % (passed, failed))
    sys.exit(0 if failed == 0 else 1)
