#!/usr/bin/env python3
"""For scripts that have crates checked: how rattle is called, and what edits say.

usage: tools/checking.py words CRATE [--source]
                                 the words by which the kit's `rattle` takes a crate, a line each
       tools/checking.py misfits the edits whose texts do not stand once in their files, a line each
       tools/checking.py at-once how many checks to run side by side on this machine
"""
import os
import re
import shutil
import subprocess
import sys
import tempfile
import time
from pathlib import Path

TOP = Path(__file__).resolve().parent.parent
# the memory that a check may take
ROOM = 3_000_000_000
# what the check says where a proof's text no longer fits the code, whatever the code does
SHAPE = re.compile(r'can be named from here|has no field|has no `|is not in scope|unknown name')
# a name in a proof, and one of which the check says that it is gone
NAME = re.compile(r"[\w'-]+")
LOST = re.compile(r"has no (?:field )?`([\w'-]+)`")
# a goal that no file answers and that no tactic closes
OPEN = re.compile(r'it is not proved that ')
# a file of a function's proof
PROOF = re.compile(r'crates/(\w+)/proofs/(.+)/(?:Answers|Invariants|Proof)\.antt$')
# what the check says of a thing that only rests on another that it refuses
RESTS = re.compile(r'which was (not admitted|rejected)|which (is|are) not proved')


def kit():
    """The kit's folder."""
    said = subprocess.run(['rt', 'doc'], stdout=subprocess.PIPE, text=True, check=True).stdout
    return Path(said.strip()).parent


def listed():
    """What each crate of crates.txt rests on."""
    lines = (line.partition('#')[0] for line in (TOP / 'crates.txt').read_text().splitlines())
    rows = (line.split(':') for line in lines if ':' in line)
    return {name.split()[0]: deps.split() for name, deps in rows}


def below(crate, rests):
    """The project's crates on which a crate rests, each after those that it rests on itself."""
    found = []
    for dep in rests[crate]:
        if dep in rests:
            found += [name for name in [*below(dep, rests), dep] if name not in found]
    return found


def words(crate, from_source=False):
    """The words by which rattle takes a crate: its name, its root, its libraries, and the logic.

    After `rt lib` or `rt check` in the crate's folder the libraries stand in their crates' out/,
    where rt keeps them. With from_source they are source files in the folder that rattle is run in,
    and are checked with the crate, whose root is there too.
    """
    rests, at = listed(), kit()
    of_kit = {'std', *(name for name in rests[crate] if name not in rests)}
    root = 'main' if (TOP / 'crates' / crate / 'src/main.rt').exists() else 'lib'
    folder = f'crates/{crate}/' if from_source else ''
    found = ['--crate-name', crate, f'{folder}src/{root}.rt']
    for name in below(crate, rests):
        if from_source:
            uses = ','.join(['core', 'std', *rests[name]])
            found += ['--lib', f'{name}:{uses}=crates/{name}/src/lib.rt']
            of_kit |= {'core', *(it for it in rests[name] if it not in rests)}
        else:
            found += ['-L', f'dependency={TOP}/crates/{name}/out/rlib']
            if name in rests[crate]:
                found += ['--extern', f'{name}={TOP}/crates/{name}/out/rlib/{name}.rlib']
    for name in sorted(of_kit):
        found += ['--extern', f'{name}={at}/rlibs/{name}.rlib']
    return found + ['-L', f'dependency={at}/rlibs', '--logic-built', f'{at}/logic_built',
                    '--antt-project', f'{at}/rattle/logic/antt-project.json']


def at_once():
    """How many checks to run side by side: one for each processor, if the memory lasts."""
    free = re.search(r'^MemAvailable: *(\d+)', Path('/proc/meminfo').read_text(), re.M)
    return max(1, min(len(os.sched_getaffinity(0)), int(free[1]) * 1024 // ROOM))


def linked(known, to):
    """Copies a folder of checked modules, by links: a check replaces such files, changes none."""
    def copy(one, other):
        try:
            os.link(one, other)
        except OSError:
            shutil.copy2(one, other)
    shutil.copytree(known, to, copy_function=copy)


def replaced(folder, changes):
    """Replaces texts of files in the folder: each old one stands once, after those before it."""
    for file, old, new in changes:
        text = (folder / file).read_text()
        if text.count(old) != 1:
            raise ValueError(f'{file} has {text.count(old)} times: {old}')
        (folder / file).write_text(text.replace(old, new))


def refusals(said, crate=''):
    """What a check refuses of itself, and not for what it rests on: each place, with what is said.

    A place is a function, as `rules::Record::next`, or a file of the project and what it declares,
    as crates/rules/proofs/Sums.antt: `most_two`. In a check of one crate, in a copy of its folder,
    the crate is told.
    """
    top, goal = f'crates/{crate}/' if crate else '', ''
    for line in said.splitlines():
        error = re.match(r'(?:\./)?([^ :]+):[0-9:]+ error: (?:(`[^`]*`): )?(.*)', line)
        if error and not RESTS.search(error[3]):
            at, name, why = f'{top}{error[1]}', error[2] or '', error[3]
            of = PROOF.match(at)
            place = f'{of[1]}::{of[2].replace("/", "::")}' if of else f'{at}: {name}'
            yield place, f'{name} {why}'.strip()
        # a goal that no file answers and that no tactic closes is told before its function
        unproved = re.match(rf'note: \S+:[0-9:]+ ({OPEN.pattern}.*)', line)
        goal = unproved[1] if unproved else goal
        function = re.match(r'fn (\S+): (?:no proof: (.*)|not proved(.*))', line)
        if function and not RESTS.search(line) and (function[2] or goal):
            yield function[1], function[2] or goal
        if line.startswith('fn '):
            goal = ''


class Edit:
    """A file of an edit: its texts, as (file, old, new), and what its `by:` line names."""

    def __init__(self, path):
        self.path, self.name, self.by = path, path.stem, ()
        self.broken, self.harmless = [], []
        for line in path.read_text().splitlines():
            word, _, text = line.partition(': ')
            if word == 'by':
                self.by = tuple(text.split())
            elif word == 'file':
                file = text
            elif word == 'old':
                old = text
            elif word == 'new':
                self.broken.append((file, old, text))
            elif word == 'harmless':
                self.harmless.append((file, old, text))
            elif line and not line.startswith('#'):
                raise ValueError(f'{path.name}: a line that is not read: {line}')


class Crate:
    """Checks of copies of a crate in which functions are edited.

    They rest on the libraries below it, as `rt lib` keeps them in out/, and begin with the modules
    that a check of the crate as it stands leaves in a folder of the room.
    """

    def __init__(self, name, room):
        self.name, self.folder, self.known = name, TOP / 'crates' / name, Path(room) / name
        self.command = [str(kit() / 'bin/rattle'), 'check', *words(name), '--jobs', '1']

    def copied(self, copy, edits=()):
        """A copy of the crate's texts, edited."""
        for part in 'src', 'specs', 'proofs':
            if (self.folder / part).is_dir():
                shutil.copytree(self.folder / part, copy / part)
        for edit in edits:
            replaced(copy, edit.broken)

    def run(self, copy, *more):
        """What a check of a copy says."""
        done = subprocess.run([*self.command, '--incremental', 'known', *more], cwd=copy, text=True,
                              stdin=subprocess.DEVNULL, stdout=subprocess.PIPE,
                              stderr=subprocess.STDOUT, errors='replace')
        return done.stdout, done.returncode

    def begin(self):
        """Whether the crate is proved as it stands, over what `rt` kept of it."""
        with tempfile.TemporaryDirectory() as made:
            copy, kept = Path(made), self.folder / 'out/incremental'
            self.copied(copy)
            if kept.is_dir():
                linked(kept, copy / 'known')
            _, status = self.run(copy)
            shutil.move(copy / 'known', self.known)
        return status == 0

    def refused(self, copy):
        """What a check of an edited copy refuses of itself, each place with all that is said of it;
        then the functions that call a refused one, and the whole that was said."""
        said, status = self.run(copy)
        if status != 1 or not re.search('^logic=not-proved', said, re.M):
            raise ValueError(f'no refusal (exit status {status}): {said[-300:]}')
        found = {}
        for place, why in refusals(said, self.name):
            found.setdefault(place, []).append(why)
        resting = re.findall(r'^fn (\S+): .*which (?:is|are) not proved$', said, re.M)
        return found, set(resting), said

    def names(self, copy, functions):
        """The names that the functions' proofs have for steps and goals, by what they stand for."""
        with tempfile.TemporaryDirectory() as made:
            starts = [word for name in functions for word in ('--start', name.partition('::')[2])]
            self.run(copy, '--generated', made, *starts)
            found, top = {}, Path(made, f'Rattle-{self.name}-proofs')
            for name in functions:
                goals = top.joinpath(*name.split('::')[1:], 'Goals.antt')
                blocks = goals.read_text().split('\n\n') if goals.exists() else []
                found[name] = {key: shown for key, shown in map(step_of, blocks) if key}
        return found

    def files(self, copy, functions):
        """The proof files of functions in a copy, as they are in the crate."""
        for name in functions:
            folder = Path('proofs', *name.split('::')[1:])
            for path in sorted((self.folder / folder).glob('*.antt')):
                yield name, copy / folder / path.name, path.read_text()

    def guessed(self, copy, functions, said):
        """Whether new names for goals were found in what a check said; see `renamed`.

        A name of the proof files that is gone stands for the one that is offered, is not in these
        files, and differs from it in one word, with the same letters before its number.
        """
        texts = list(self.files(copy, functions))
        own = {word for _, _, text in texts for word in NAME.findall(text)}
        offered = {word.partition('-clause-')[0] for word in NAME.findall(said)} - own
        parts = {}
        for lost in {word for word in LOST.findall(said) if word in own}:
            found = {part_of(lost, other) for other in offered if one_word(lost, other)}
            if len(found) != 1:
                return False
            parts.update(found)
        for _, path, text in texts:
            path.write_text(NAME.sub(lambda m: turn(m[0], {}, parts), text))
        return bool(parts)

    def renamed(self, copy, functions):
        """Whether the functions' proofs in the copy have the goals' names of the edited code.

        A goal is named by the code that leads to it, as `returns-then-m-lt3`. Where an edit changes
        such a name, and no step, the answer is given to the goal under its new name.
        """
        for _, path, text in self.files(copy, functions):
            path.write_text(text)
        with tempfile.TemporaryDirectory() as made:
            self.copied(Path(made))
            linked(self.known, Path(made) / 'known')
            old = self.names(Path(made), functions)
        new = self.names(copy, functions)
        if any(not old[name] or old[name].keys() != new[name].keys() for name in functions):
            return False
        for name, path, text in self.files(copy, functions):
            turned = {was: new[name][step] for step, was in old[name].items()}
            parts = dict(part_of(was, now) for was, now in turned.items() if was != now)
            path.write_text(NAME.sub(lambda m: turn(m[0], turned, parts), text))
        return True

    def refuses(self, edits):
        """What edits of as many functions come to.

        It is a dict of each edit to whether it is refused as it must be and what to say; then what
        else is refused; and the edits that must be tried without the others, since their functions
        call other edited ones.
        """
        with tempfile.TemporaryDirectory() as made:
            copy = Path(made)
            self.copied(copy, edits)
            linked(self.known, copy / 'known')
            found, resting, said = self.refused(copy)
            wrong = misnamed(found)
            if wrong and self.guessed(copy, wrong, said):
                found, resting, said = self.refused(copy)
                # a goal that is left then may be one that has an answer
                if not misnamed(found) and not any(OPEN.match(why) for name in wrong
                                                   for why in found.get(name, [])):
                    wrong = []
            if wrong and self.renamed(copy, wrong):
                found, resting, said = self.refused(copy)
        told, apart = {}, []
        for edit in edits:
            place = next((p for p in found if p.endswith(f'::{edit.function}')), None)
            said = found.pop(place, [])
            if len(edits) > 1 and any(p.endswith(f'::{edit.function}') for p in resting):
                apart.append(edit)
            elif said and not any(map(SHAPE.search, said)):
                told[edit] = True, f'refused, as it must be, by {place}'
            else:
                told[edit] = False, f'NOT REFUSED AS IT MUST BE by {edit.function}: {said}'
        return told, found, apart


def misnamed(found):
    """The functions that are refused for names in their proofs, if nothing else is so refused."""
    wrong = sorted(place for place, why in found.items() if any(map(SHAPE.search, why)))
    return wrong if all('::' in place for place in wrong) else []


def one_word(was, now):
    """Whether names differ in one word, whose letters before a number are the same."""
    was, now = was.split('-'), now.split('-')
    apart = [pair for pair in zip(was, now) if pair[0] != pair[1]]
    return len(was) == len(now) and len(apart) == 1 and len(
        {word.rstrip('0123456789') for word in apart[0]}) == 1


def step_of(block):
    """What a name that rattle gives stands for, and the name: a step, or a goal and its clause."""
    place = re.search(r'^(\S+) =\s+Lts\.(\S+)', block, re.M)
    fitted = re.search(r'^the-fitted-(\S+) =', block, re.M)
    if fitted:
        goal = re.search(r'Lts\.(?:ByClause-)?(Need-[\w-]+)', block)
        return (goal[1], fitted[1].partition('-clause-')[2]) if goal else None, fitted[1]
    return (place[2], '') if place else None, place and place[1]


def part_of(was, now):
    """The part of a goal's name that differs, from the words `then`, `else`, `in` or `if` on."""
    was, now = was.split('-'), now.split('-')
    least = min(len(was), len(now))
    start = end = 0
    while start < least and was[start] == now[start]:
        start += 1
    while end < least - start and was[-1 - end] == now[-1 - end]:
        end += 1
    while start > 0 and was[start - 1] not in ('then', 'else', 'in', 'if'):
        start -= 1
    return '-'.join(was[start:len(was) - end]), '-'.join(now[start:len(now) - end])


def turn(name, turned, parts):
    """The name of a proof's text in the edited code's words."""
    if name in turned:
        return turned[name]
    for was, now in parts.items():
        name = re.sub(rf"-{re.escape(was)}(?![\w'])", f'-{now}', name)
    return name


def built(crates):
    """Whether the libraries below the crates are proved; those of all crates if none is named."""
    calls = [(TOP / 'crates' / crate, ['rt', 'lib']) for crate in crates]
    for folder, command in calls or [(TOP, ['rt', 'all', 'check', '--jobs', str(at_once())])]:
        done = subprocess.run(command, cwd=folder, text=True, stdin=subprocess.DEVNULL,
                              stdout=subprocess.PIPE, stderr=subprocess.STDOUT, errors='replace')
        if done.returncode:
            print(done.stdout[-2000:])
            return False
    return True


def rounds(edits):
    """The edits in as few rounds as it takes to have one of each function in a round."""
    parts = []
    for edit in edits:
        part = next((part for part in parts
                     if edit.function not in [other.function for other in part]), None)
        if part is None:
            parts.append(part := [])
        part.append(edit)
    return parts


def tried(crate, edits):
    """What a round of edits came to: a line for each, and whether it is as it must be."""
    began = time.time()
    lines = []
    try:
        told, more, apart = crate.refuses(edits)
        lines += [(f'{crate.name}/{edit.name}: {says}', good)
                  for edit, (good, says) in told.items()]
        lines += [(f'{crate.name}: {place} is refused too: {said}', False)
                  for place, said in more.items()]
    except ValueError as fault:
        apart = []
        lines.append((f'{crate.name}: {fault}', False))
    lines = [(f'{says} ({time.time() - began:.0f} s)', good) for says, good in lines]
    for part in rounds(apart) if len(apart) < len(edits) else [[edit] for edit in apart]:
        lines += tried(crate, part)
    return lines


def misfits():
    """The edits that do not fit the texts that they change, each with the reason."""
    folders = [(path, TOP / 'crates' / path.parent.parent.name)
               for path in TOP.glob('crates/*/must-fail/*.edit')]
    folders += [(path, TOP / 'crates' / path.parent.name)
                for path in TOP.glob('tests/code-broken/*/*.edit')]
    folders += [(path, TOP) for path in TOP.glob('tests/rules-broken/*.edit')]
    for path, folder in sorted(folders):
        try:
            edit = Edit(path)
            for changes in edit.broken, edit.harmless:
                texts = {}
                for file, old, new in changes:
                    text = texts.setdefault(file, (folder / file).read_text())
                    if text.count(old) != 1:
                        raise ValueError(f'{file} has {text.count(old)} times: {old}')
                    texts[file] = text.replace(old, new)
            if not edit.broken:
                raise ValueError('it changes nothing')
        except (OSError, ValueError) as fault:
            yield f'{path.relative_to(TOP)}: {fault}'


if __name__ == '__main__':
    if sys.argv[1:2] == ['words'] and sys.argv[2:]:
        print(*words(sys.argv[2], '--source' in sys.argv[3:]), sep='\n')
    elif sys.argv[1:] == ['misfits']:
        found = list(misfits())
        print(*found, sep='\n', end='\n' if found else '')
        sys.exit(1 if found else 0)
    elif sys.argv[1:] == ['at-once']:
        print(at_once())
    else:
        sys.exit(__doc__)
