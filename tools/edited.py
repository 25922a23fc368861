"""Edits of the code, and what the prover says of each, tried in copies of the repository.

Several are checked at once, each in a function of its own: a function is proved for itself, from the contracts of those that it calls,
and of one that only calls a function that is not proved the prover says so. `rt check` proves again what was touched. Goals and facts are
named after the code, as `returns-then-n-lt12` and `if-n-lt12`: where an edit changes such a name, and the files of the function's proof
name it, it is tried once more with the new name in them, since any such change would be refused without.
"""
import difflib
import os
import pathlib
import queue
import re
import shutil
import subprocess
import tempfile

ROOT = pathlib.Path(__file__).resolve().parent.parent
TOKEN = re.compile(r'//[^\n]*|"(?:\\.|[^"\\])*"|b?\'(?:\\.|[^\'\\])\'|[A-Za-z_]\w*|\d\w*|->|=>|==|!=|<=|>=|<<|>>|&&|\|\||::|\.\.|[+\-*/%&|^]=|\s+|.')
OPEN, CLOSE = {'(': ')', '[': ']', '{': '}'}, {')', ']', '}'}
# what `rt check` prints: a line for each function; a place with what is wrong there; and last a verdict, if the code compiles
LINE = re.compile(r'^fn (\S+): (.*)$', re.M)
ONLY_CALLS = re.compile(r'no proof: it calls .*, which (?:is|are) not proved')
ERROR = re.compile(r'^(?:note: )?(?:\./)?((?:src|specs|proofs)/\S+?:\d+):\d+: (?:error(?:\[[\w-]+\])?: (.*)|(it is not proved that .*))$', re.M)
NOT_CODE = re.compile(r'^(?:\./)?(src/\S+?:\d+):\d+: (error\[[\w-]+\]: .*)$', re.M)
VERDICT = re.compile(r'^logic=(proved|not-proved)', re.M)
UNTOLD = re.compile(r'^fn \S+: could not tell|^rattle: no verdict', re.M)
GONE = re.compile(r'can be named from here|has no field|is not in scope')
# where the check names the goals, the places in the code and the facts of a function, each in the order of the code; and its code
NAMES = [('Goals.antt', re.compile(r'^abbrev pub the-fitted-(\S+) :', re.M)), ('Lts/View.antt', re.compile(r'record In-(\S+) :')),
         ('Lts.antt', re.compile(r'^ +pub ([^\s:]+) :', re.M))]
CODE = 'Code/Mir.antt'


def tokens_of(text):
    """(start, text) of each token that is neither blank nor a comment."""
    return [(m.start(), m.group()) for m in TOKEN.finditer(text) if not m.group().isspace() and not m.group().startswith('//')]


def closing(tokens, i):
    """The place of the bracket that closes the one at i."""
    depth = 0
    for j in range(i, len(tokens)):
        depth += (tokens[j][1] in OPEN) - (tokens[j][1] in CLOSE)
        if depth == 0:
            return j
    raise SystemExit('brackets do not match')


def bodies(tokens):
    """(name, first, last) of each function's body and each constant's value, by the places of their tokens."""
    i = 0
    while i < len(tokens):
        word = tokens[i][1]
        if word == 'const' and tokens[i + 2][1] == ':':
            first = next(j for j in range(i, len(tokens)) if tokens[j][1] == '=')
            last = next(j for j in range(first, len(tokens)) if tokens[j][1] == ';' and balanced(tokens, first + 1, j))
            yield tokens[i + 1][1], first + 1, last
            i = last
        elif word == 'fn':
            name, i = tokens[i + 1][1], i + 2
            while tokens[i][1] != '{':
                i = closing(tokens, i) + 1 if tokens[i][1] in OPEN else i + 1
                if tokens[i - 1][1] in ('requires', 'ensures', 'ghost'):  # the clause may have a name
                    i = closing(tokens, next(j for j in range(i, len(tokens)) if tokens[j][1] == '{')) + 1
            last = closing(tokens, i)
            yield name, i + 1, last
            i = last
        elif word in ('struct', 'enum', 'use', 'mod'):
            while tokens[i][1] not in (';', '{'):
                i += 1
            i = closing(tokens, i) if tokens[i][1] == '{' and word in ('struct', 'enum') else i
        i += 1


def bodies_with_lines(text):
    """(name, lines, first, last) of each body: from the end of the one before, so that a function's clauses are in its lines."""
    tokens, ended = tokens_of(text), 0
    for name, first, last in bodies(tokens):
        end = tokens[last][0]
        yield name, range(text.count('\n', 0, ended) + 1 + bool(ended), text.count('\n', 0, end) + 2), tokens[first][0], end
        ended = end


def balanced(tokens, first, last):
    return sum((t in OPEN) - (t in CLOSE) for _, t in tokens[first:last]) == 0


class Edit:
    """One edit of one function: what is replaced, and how it is shown and known again."""

    def __init__(self, crate, path, text, function, lines, changes):
        self.crate, self.path, self.function, self.changes = crate, path, function, changes
        after = replaced(text, changes)
        first, last = min(a for a, _, _ in changes), max(b for _, b, _ in changes)
        self.line = text.count('\n', 0, first) + 1
        start, end = text.rfind('\n', 0, first) + 1, text.find('\n', last)
        self.key = f'{crate} {function}: {words(text[start:end])} → {words(after[start:end + len(after) - len(text)])}'.strip()
        inside = pathlib.PurePath(*path.parts[2:])
        self.places = {f'{inside}:{line}' for line in lines}
        # the module, but for the crate's own, and a type if it is a method; a method of a type of the crate's own module has that type's
        # name alone, in whatever file it stands; a closure of it has a longer name
        module = '' if inside.stem in ('lib', 'main') else '::'.join([*inside.parts[1:-1], inside.stem, ''])
        self.named = re.compile(rf'{crate}::(?:{module}(?:[A-Z]\w*::)?|[A-Z]\w*::){re.escape(function)}(?:$|::|\+)')
        self.is_constant = function.isupper()

    def own(self, names):
        """Those of the functions that it changes; of a constant, any."""
        return {name for name in names if self.is_constant or self.named.match(name)}


def replaced(text, changes):
    """The text with these changes; what stands below stays in its line."""
    for a, b, new in sorted(changes, reverse=True):
        text = text[:a] + new + '\n' * max(0, text.count('\n', a, b) - new.count('\n')) + text[b:]
    return text


def words(text):
    return ' '.join(text.split())


def rt(folder, *command):
    return subprocess.run(['rt', *command], cwd=folder, stdin=subprocess.DEVNULL, stdout=subprocess.PIPE, stderr=subprocess.STDOUT, text=True,
                          errors='replace')


def batches(edits):
    """The edits in groups: in a group is one of a function at most, and one of a constant is alone. Two functions of one name in one
    file, as two types' `fmt`, are known by that name alone, and count as one."""
    groups = []
    for edit in edits:
        same = lambda other: edit.path == other.path and (edit.function == other.function or edit.places & other.places)
        alike = lambda group: edit.is_constant or any(other.is_constant or same(other) for other in group)
        group = next((group for group in groups if not alike(group)), None)
        if group is None:
            groups.append(group := [])
        group.append(edit)
    return groups


def checked(copies, edits, crate, *flags, proofs=None):
    """What `rt check` prints of the crate with these edits, and with other files of proofs where they are given, made in a copy that
    nobody else uses and taken back afterwards. It begins with what was proved of the crate as it is."""
    copy = copies.get()
    folder = copy / 'crates' / crate
    texts = {edit.path: (copy / edit.path).read_text() for edit in edits}
    texts = {path: (text, replaced(text, [change for edit in edits if edit.path == path for change in edit.changes])) for path, text in texts.items()}
    texts.update((path, ((copy / path).read_text(), text)) for path, text in (proofs or {}).items())
    try:
        shutil.rmtree(folder / 'out' / 'incremental', ignore_errors=True)
        proved = copies.proved / 'crates' / crate / 'out' / 'incremental'
        if proved.is_dir():
            shutil.copytree(proved, folder / 'out' / 'incremental', copy_function=linked)
        for path, (_, text) in texts.items():
            (copy / path).write_text(text)
        return rt(folder, 'check', '--jobs', '1', *flags).stdout
    finally:
        for path, (text, _) in texts.items():
            (copy / path).write_text(text)
        copies.put(copy)


def generated(copies, edits, crate, functions):
    """What the check makes of each of these functions with these edits: the code and the goals of its proof, by the names of the files."""
    if not functions:
        return {}
    with tempfile.TemporaryDirectory(dir=copies.proved.parent) as to:
        checked(copies, edits, crate, '--generated', to, *(word for name in functions for word in ('--start', name)))
        folders = {name: pathlib.Path(to, f'Rattle-{crate}-proofs', *name.split('::')[1:]) for name in functions}
        return {name: {file: (folder / file).read_text() if (folder / file).is_file() else '' for file in (CODE, *dict(NAMES))} for name, folder in folders.items()}


def refused(said):
    """The functions that are not proved themselves, with what is said of each: not those that only call such a function."""
    return {name: told for name, told in LINE.findall(said) if told.startswith(('not proved', 'no proof')) and not ONLY_CALLS.fullmatch(told)}


def first_error(edit, said, lost):
    """The first error in the proof of the function that is edited, or at its code, and whether one is about something that is gone."""
    proofs = tuple('proofs/' + '/'.join(name.split('::')[1:]) + '/' for name in lost)
    found = [match for match in ERROR.finditer(said) if match[1] in edit.places or proofs and match[1].startswith(proofs)]
    shown = [match for match in found if 'was not admitted' not in match[0]]  # that only follows from another error
    return (f'{shown[0][1]}: {(shown[0][2] or shown[0][3])[:160]}' if shown else ''), any(GONE.search(match[0]) for match in found)


def judged(group, said):
    """What the prover says of each edit of a group that was tried at once: a mark, '' if it is refused, and why."""
    lost = refused(said)
    astray = set(lost) - {name for edit in group for name in edit.own(lost)}
    for edit in group:
        own = edit.own(lost)
        where, gone = first_error(edit, said, own)
        unproved = next((told for told in (lost[name] for name in sorted(own)) if 'did not prove' in told), '')
        if UNTOLD.search(said) or not VERDICT.search(said):
            yield edit, 'UNTOLD', 'the prover could not tell'
        elif astray:
            yield edit, 'ASTRAY', f'{" ".join(sorted(astray))} is not proved either'
        elif not own:
            yield edit, 'NOT REFUSED', 'the function is still proved'
        elif gone:
            yield edit, 'UNFIT', where
        elif where or unproved:
            yield edit, '', where or unproved[:160]
        else:
            yield edit, 'UNSAID', f'no goal of its function is said to be unproved: {lost[sorted(own)[0]][:160]}'


def renamed(before, after):
    """The names of a function's goals, places and facts that an edit changes, each with the one that stands for it then."""
    for file, name in NAMES:
        old, new = name.findall(before[file]), name.findall(after[file])
        for how, a, b, c, d in difflib.SequenceMatcher(None, old, new, False).get_opcodes():
            for one in old[a:b] if how == 'replace' else ():
                like = difflib.get_close_matches(one, new[c:d], 1)
                yield from ((one, other) for other in like)


def followed(group, functions, copies):
    """What the prover says of edits of these functions, whose proofs take the names that the edits give to their goals, places and facts."""
    crate, texts, after = group[0].crate, {}, generated(copies, group, group[0].crate, functions)
    copies.made.update(generated(copies, [], crate, [it for it in functions if it not in copies.made]))
    for function in functions:
        names = dict(renamed(copies.made[function], after[function]))
        word = re.compile('|'.join(rf"(?<![\w'-]){re.escape(name)}(?![\w'-])" for name in sorted(names, key=len, reverse=True)))
        for path in sorted(ROOT.joinpath('crates', crate, 'proofs', *function.split('::')[1:]).glob('*.antt')) if names else ():
            texts[path.relative_to(ROOT)] = word.sub(lambda found: names[found[0]], path.read_text())
    return list(judged(group, checked(copies, group, crate, proofs=texts)))


def attempt(group, copies):
    """Each edit of the group with what the prover says of it, and how many checks that took. A mark says what is wrong with it: NOT REFUSED,
    UNFIT, NO CODE, or that the prover could not tell, refused another function, or did not say why. What is not refused with others is
    tried alone."""
    said, again, checks = checked(copies, group, group[0].crate), [], 1
    if NOT_CODE.search(said) and not VERDICT.search(said):
        wrong = {place: f'{place}: {error}' for place, error in NOT_CODE.findall(said)[::-1]}  # the first at a place
        found = [(edit, 'NO CODE', [*wrong.values()][-1]) for edit in group if len(group) == 1]
        found = found or [(edit, 'NO CODE', wrong[place]) for edit in group for place in [*edit.places & set(wrong)][:1]]
        rest = [edit for edit in group if edit not in [it[0] for it in found]]
        again = [rest] if found and rest else [[edit] for edit in rest]
    else:
        found = list(judged(group, said))
        unfit = [edit for edit, mark, _ in found if mark == 'UNFIT']
        if unfit:
            functions = sorted({name for edit in unfit for name in edit.own(refused(said))})
            found, checks = [it for it in found if it[1] != 'UNFIT'] + followed(unfit, functions, copies), checks + 3
        if len(group) > 1:
            again = [[edit] for edit, mark, _ in found if mark not in ('', 'UNFIT')]
            found = [it for it in found if it[1] in ('', 'UNFIT')]
    for part in again:
        more, count = attempt(part, copies)
        found, checks = found + more, checks + count
    return found, checks


def linked(one, other):
    """Gives what was proved a second name: `rt` replaces such a file, and never writes into it."""
    try:
        return os.link(one, other) if str(one).endswith('.oantt') else shutil.copy2(one, other)
    except OSError:
        return shutil.copy2(one, other)


def crates():
    """Each crate of crates.txt, in its order, with those that it stands on, each after its own."""
    below = {}
    for line in (ROOT / 'crates.txt').read_text().splitlines():
        row = re.match(r'(\w+)[^:#]*:([^#]*)', line)
        if row:
            below[row[1]] = row[2].split()

    def all_below(name):
        found = []
        for dep in below.get(name, []):
            found += [it for it in [*all_below(dep), dep] if it in below and it not in found]
        return found

    return {name: all_below(name) for name in below}


class Copies(queue.Queue):
    """Copies of the repository in which nobody works, each with these crates proved as they are and those below them built."""

    def __init__(self, room, names, jobs):
        super().__init__()
        self.proved, self.made = room / 'proved', {}  # the copy that is as it is, and what the check makes of functions there
        below, rows = crates(), []
        wanted = {it for name in names for it in [name, *below[name]]}
        for line in (ROOT / 'crates.txt').read_text().splitlines():
            rows += [line] if (row := re.match(r'\w+', line)) and row[0] in wanted else []
        for copy in (self.proved, *(room / str(n) for n in range(jobs))):
            copy.mkdir()
            (copy / 'crates.txt').write_text('\n'.join(rows) + '\n')
            if (ROOT / 'HANDLES').exists():
                shutil.copy(ROOT / 'HANDLES', copy)
            for name in wanted:
                for part in ('src', 'specs', 'proofs'):
                    if (ROOT / 'crates' / name / part).is_dir():
                        shutil.copytree(ROOT / 'crates' / name / part, copy / 'crates' / name / part)
        # (it begins with what checks in other copies on this machine have kept of the same files)
        said = rt(self.proved, 'all', 'check', '--jobs', str(jobs)).stdout
        wrong = re.findall(r'^(\w+): failed', said, re.M)
        if wrong or not re.search(r'^(\d+) of \1 crates ok', said, re.M):
            raise SystemExit(f'{" ".join(wrong) or "a crate"} is not proved as it is: see `rt check` in its folder\n{said[-2000:]}')
        for n in range(jobs):
            for name in wanted:
                rlib = self.proved / 'crates' / name / 'out' / 'rlib'
                if rlib.is_dir():
                    shutil.copytree(rlib, room / str(n) / 'crates' / name / 'out' / 'rlib')
            self.put(room / str(n))


def jobs_at_a_time():
    """How many checks fit: one a processor, four at most, and three thousand million bytes of memory for each."""
    free = re.search(r'^MemAvailable: *(\d+) kB', pathlib.Path('/proc/meminfo').read_text(), re.M) if os.path.exists('/proc/meminfo') else None
    return max(1, min(4, len(os.sched_getaffinity(0)), int(free[1]) // 3_000_000 if free else 2))
