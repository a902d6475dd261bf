#!/usr/bin/env python3
"""Sessions of the real program that are killed, stopped, cut in slices and resumed.

    tests/sessions.py PROGRAM [KILLS]

Runs PROGRAM in folders of its own: killed (SIGKILL) at KILLS random moments (200) over three scripts, with 1 to 256 workers and rounds
of 1 to 65,536 blocks, and resumed until it is done, stopped by the file codes.stop, cut in slices, with rounds of several lengths, over slots that are damaged, swapped,
foreign or forged, over checkpoints of version 1, and over folders in which nothing can be stored. If strace is there, a session
is also killed at each of its calls of the kernel on files, and each of these fails once. A session that finishes must print the
text of the same script without checkpoints. The searches are long enough for a second or two of PROGRAM. Prints a line for each
check that fails, and at the end 'N passed, M failed'.
"""
import hashlib
import json
import os
import random
import shutil
import subprocess
import sys
import tempfile
import time
from concurrent.futures import ThreadPoolExecutor

DONE, USAGE, PAUSED, VAULT_FAULT, NO_CHECKPOINT, DAMAGED, OTHER_SCRIPT, UNFIT = 0, 2, 3, 6, 8, 9, 10, 13
LANES = 2
MOST_IN_A_CHAIN = 12

# a search of 2,331 blocks, which tells how fast the program is with its checkpoints
SPEED, SPEED_BLOCKS = b'MinimumDistance(BCHCode(63,7,GF(2)));', 2331
SCRIPTS = {
    'one search': b'C := BCHCode(127,13,GF(2));\nDimension(C);\nMinimumDistance(C);\n',
    'two searches': b'MinimumDistance(BCHCode(63,9,GF(2)));\nMinimumDistance(BCHCode(127,11,GF(2)));\nDimension(BCHCode(63,9,GF(2)));\n',
    'a fault at the end': b'MinimumDistance(BCHCode(127,11,GF(2)));\nCertificate(BCHCode(63,7,GF(2)));\nUnknown(1);\n',
}
GOLAY = b'MinimumDistance(BinaryGolayCode());'
EXTENDED_GOLAY = b'MinimumDistance(ExtendedBinaryGolayCode());'
GOLAY_WORD = b'[1,0,0,0,0,0,0,0,0,0,0,0,1,0,1,0,1,1,1,0,0,0,1'


class Folder:
    """A folder in which sessions of one script run."""

    def __init__(self, program, script, budget):
        self.path = tempfile.mkdtemp(prefix='codes-')
        self.program, self.script, self.budget = program, script, budget

    def __enter__(self):
        return self

    def __exit__(self, *_):
        shutil.rmtree(self.path, ignore_errors=True)

    def start(self, command, *more, before=(), **how):
        args = [*before, self.program, command, 'budget=%d' % self.budget, *more]
        return subprocess.Popen(args, cwd=self.path, stdin=subprocess.PIPE, stdout=subprocess.PIPE, stderr=subprocess.PIPE, **how)

    def session(self, command, *more, script=None, **how):
        """The status, the text and standard error of a session that isn't killed."""
        process = self.start(command, *more, **how)
        out, err = process.communicate(self.script if script is None else script)
        return process.returncode, out, err.decode()

    def killed(self, command, delay, *more):
        """Whether the session was still running when it was killed; its status and text."""
        process = self.start(command, *more)
        try:
            out, _ = process.communicate(self.script, timeout=delay)
            return False, process.returncode, out
        except subprocess.TimeoutExpired:
            process.kill()
            out, _ = process.communicate()
            return True, process.returncode, out

    def slot(self, number):
        return os.path.join(self.path, 'codes.slot%d' % number)

    def read(self, number):
        try:
            with open(self.slot(number), 'rb') as file:
                return file.read()
        except FileNotFoundError:
            return b''

    def both(self):
        return [self.read(0), self.read(1)]

    def write(self, number, held):
        with open(self.slot(number), 'wb') as file:
            file.write(held)

    def stop_file(self):
        return os.path.join(self.path, 'codes.stop')


def body_in(held):
    return json.loads(held[65:])


def is_sealed(held):
    return hashlib.sha256(held[65:]).hexdigest().encode() + b'\n' == held[:65]


def sealed(state):
    body = json.dumps(state, separators=(',', ':'), sort_keys=True).encode()
    return hashlib.sha256(body).hexdigest().encode() + b'\n' + body


def checkpoint(script, budget, version, turn, blocks, weight, place):
    return sealed({'version': version, 'script': hashlib.sha256(script).hexdigest(), 'budget': budget, 'turn': turn, 'done': [],
                   'blocks': blocks, 'weight': weight, 'place': place})


def records_in(err):
    """The record lines of standard error, as lists of query, blocks, bound and least weight."""
    return [[int(line.split()[i]) for i in (1, 3, 5, 7)] for line in err.splitlines() if line.startswith('query ')]


class Checks:
    def __init__(self):
        self.passed = self.failed = 0

    def that(self, holds, text):
        if holds:
            self.passed += 1
        else:
            self.failed += 1
            print('failed: ' + text, flush=True)
        return holds


def budget_for(program):
    with Folder(program, SPEED, 100000) as folder:
        began = time.monotonic()
        folder.session('run', 'keep=yes')
        return max(700, min(60000, int(2 * SPEED_BLOCKS / (time.monotonic() - began))))


def place_in_chain(folder):
    """How far the newest checkpoint is: the queries that are settled and the blocks of the current one; None if a slot holds
    something else than a checkpoint."""
    held = [slot for slot in folder.both() if slot]
    if not all(is_sealed(slot) for slot in held):
        return None
    states = [body_in(slot) for slot in held]
    if len(states) == 2 and abs(states[0]['turn'] - states[1]['turn']) != 1:
        return None
    return max(((len(s['done']), s['blocks']) for s in states), default=(0, 0))


def chain(checks, program, name, budget, wanted, longest, kills, rng):
    """One session that is killed so often at most, and resumed each time; how often it was killed."""
    with Folder(program, SCRIPTS[name], budget) as folder:
        command, count, place = 'run', 0, (0, 0)
        while True:
            workers = 'workers=%d' % rng.choice([1, 2, 3, 16, 256])
            # the last session, which ends, has no short rounds, each of which waits for the disk
            shape = 'round=%d' % 2 ** rng.randint(8 if count == kills else 0, 16)
            if count == kills:
                was_killed, (status, out, _) = False, folder.session(command, 'keep=yes', workers, shape)
            else:
                was_killed, status, out = folder.killed(command, rng.uniform(0.001, longest), 'keep=yes', workers, shape)
            if was_killed:
                count += 1
                now = place_in_chain(folder)
                if not checks.that(now is not None and now >= place, '%s: a slot after %d kills: %s' % (name, count, now)):
                    return count
                place = now
                command = 'run' if now == (0, 0) else 'resume'
                continue
            checks.that((status, out) == wanted, '%s: status %d after %d kills, or another text' % (name, status, count))
            return count


def kill_at_random(checks, program, budget, kills, seed):
    rng = random.Random(seed)
    plain = {}
    for name in SCRIPTS:
        with Folder(program, SCRIPTS[name], budget) as folder:
            wanted, began = folder.session('run')[:2], time.monotonic()
            checks.that(folder.session('run', 'keep=yes')[:2] == wanted, name + ': another text with checkpoints')
            plain[name] = wanted, (time.monotonic() - began) / 4
    done = turn = 0
    while done < kills:
        name = list(SCRIPTS)[turn % len(SCRIPTS)]
        most = min(kills - done, rng.randint(1, MOST_IN_A_CHAIN))
        done += chain(checks, program, name, budget, plain[name][0], plain[name][1], most, rng)
        turn += 1


def stop_file(checks, program, budget):
    with Folder(program, SCRIPTS['two searches'], budget) as folder:
        wanted = folder.session('run')[:2]
        open(folder.stop_file(), 'w').close()
        checks.that(folder.session('run')[:2] == wanted, 'the stop file stops a session that keeps nothing')
        status, out, err = folder.session('run', 'keep=yes')
        last = records_in(err)[-1]
        says = 'codes: paused at query %d blocks %d\n' % (last[0], last[1])
        checks.that((status, out) == (PAUSED, b'') and err.endswith(says), 'the stop file: status %d' % status)
        status, out, err = folder.session('resume', 'keep=yes')
        again = records_in(err)
        checks.that(status == PAUSED and len(again) == 1 and again[0] > last, 'the stop file stops resume after a round')
        os.remove(folder.stop_file())
        checks.that(folder.session('resume', 'keep=yes')[:2] == wanted, 'the text after the stop file is gone')


def in_slices(folder, size):
    """The status and the text in the end, the records of all sessions, and how many sessions there were."""
    records, count, command = [], 0, 'run'
    while True:
        status, out, err = folder.session(command, 'keep=yes', 'slice=%d' % size)
        records, count, command = records + records_in(err), count + 1, 'resume'
        if status != PAUSED or count == 1000:
            return status, out, records, count


def slices(checks, program, budget):
    for name in SCRIPTS:
        with Folder(program, SCRIPTS[name], budget) as folder:
            wanted, text, err = folder.session('run')
            status, out, records, count = in_slices(folder, budget // 8)
            checks.that((status, out) == (wanted, text) and count >= 3, '%s: slices end with status %d after %d' % (name, status, count))
            missing = [r for r in records_in(err) if r not in records and r[1] % 256 == 0 and r[0] == len(SCRIPTS)]
            rising = all(a[:2] < b[:2] for a, b in zip(records, records[1:]))
            checks.that(rising and not missing and records[-1] == records_in(err)[-1], '%s: the records of slices' % name)
    with Folder(program, SCRIPTS['two searches'], budget) as folder:
        wanted, text, err = folder.session('run')
        last = [r for r in records_in(err) if r[0] == 0][-1][1]
        status, _, err = folder.session('run', 'keep=yes', 'slice=%d' % last)
        checks.that(status == PAUSED and err.endswith('paused at query 0 blocks %d\n' % last), 'a slice that ends between two searches')
        status, out, err = folder.session('resume', 'keep=yes')
        checks.that((status, out) == (wanted, text) and records_in(err)[0][0] == 1, 'the first search is settled, and not done again')


def at_rounds(records, ends, longest):
    """Of the records after each block those of the rounds of at most so many blocks, when phases and searches end at `ends`."""
    wanted, begin = [], {}
    for query, end in ends:
        here = begin.get(query, 0)
        wanted += [(query, block) for block in [*range(here + longest, end, longest), end]]
        begin[query] = end
    return [records[key] for key in wanted]


def longest_rounds(checks, program):
    """The text is the same for every longest round, and the records are those of its rounds; so in a chain of several."""
    with Folder(program, SPEED, 1 << 20) as folder:
        wanted, text, one = folder.session('run', 'round=1')
        each = {tuple(r[:2]): r for r in records_in(one)}
        checks.that(sorted(each) == [(0, l + 1) for l in range(SPEED_BLOCKS)], 'rounds of one block')
        ends = [tuple(r[:2]) for r in records_in(folder.session('run', 'round=1048576')[2])]
        checks.that(len(ends) < 40 and ends[-1] == (0, SPEED_BLOCKS), 'rounds of whole phases')
        for longest in (1, 2, 3, 7, 256, 65536, 1048576):
            for workers in (1, 4):
                asked = 'round=%d' % longest, 'workers=%d' % workers
                status, out, err = folder.session('run', *(asked if longest != 256 else asked[1:]))
                right = records_in(err) == at_rounds(each, ends, longest)
                checks.that((status, out) == (wanted, text) and right, 'rounds of %d by %d' % (longest, workers))
        records, command = [], 'run'
        for longest, size in ((1, 100), (7, 500), (65536, 1000), (3, 40)):
            status, _, err = folder.session(command, 'keep=yes', 'slice=%d' % size, 'round=%d' % longest)
            records, command = records + records_in(err), 'resume'
            checks.that(status == PAUSED, 'a slice of rounds of %d ends with status %d' % (longest, status))
        status, out, err = folder.session('resume', 'keep=yes', 'round=1048576', 'workers=2')
        records += records_in(err)
        checks.that((status, out) == (wanted, text), 'rounds of several lengths end with status %d' % status)
        checks.that(all(each[tuple(r[:2])] == r for r in records) and tuple(records[-1][:2]) == ends[-1], 'the records of rounds of several lengths')
        for refused in ('round=0', 'round=1048577', 'round=', 'round=07'):
            checks.that(folder.session('run', refused)[:2] == (USAGE, b''), refused)


def example(checks, program):
    """What examples/in_slices.codes says of itself."""
    front = os.path.join(os.path.dirname(os.path.abspath(__file__)), '..', 'examples', 'in_slices')
    with open(front + '.codes', 'rb') as script, open(front + '.out', 'rb') as text:
        folder, wanted = Folder(program, script.read(), 1 << 20), text.read()
    with folder:
        status, out, _, count = in_slices(folder, 30)
        checks.that((status, out, count) == (DONE, wanted, 3), 'examples/in_slices: status %d after %d sessions' % (status, count))


def flipped(held, at):
    return held[:at] + bytes([held[at] ^ 1]) + held[at + 1:]


class Slots:
    """The two slots of a session that paused, and what resume says of changed ones."""

    def __init__(self, checks, folder, wanted):
        self.checks, self.folder, self.wanted = checks, folder, wanted
        self.held = folder.both()
        turns = [body_in(h)['turn'] for h in self.held]
        self.last = turns.index(max(turns))
        self.state = body_in(self.held[self.last])

    def last_one(self, change):
        return [change(h) if i == self.last else h for i, h in enumerate(self.held)]

    def forged(self, **change):
        return self.last_one(lambda h: sealed(dict(self.state, **change)))

    def resumed(self, text, status, slots, script=None, says=''):
        for i in (0, 1):
            self.folder.write(i, slots[i])
        found, out, err = self.folder.session('resume', script=script)
        right = found == status and out == (self.wanted[1] if status == self.wanted[0] else b'') and err.endswith(says)
        self.checks.that(right, '%s: status %d, not %d' % (text, found, status))


def changed_slots(checks, program, budget):
    name = 'one search'
    with Folder(program, SCRIPTS[name], budget) as folder:
        wanted = folder.session('run')[:2]
        checks.that(folder.session('resume')[0] == NO_CHECKPOINT, 'resume without slots')
        folder.session('run', 'keep=yes', 'slice=%d' % (budget // 4))
        slots = Slots(checks, folder, wanted)
        held = slots.held
        folder.session('resume')
        checks.that(held == folder.both(), 'resume with keep=no stores nothing')
        done = wanted[0]
        slots.resumed('both slots whole', done, held)
        slots.resumed('the newer slot truncated', done, slots.last_one(lambda h: h[:len(h) // 2]))
        slots.resumed('the newer slot with a flipped bit', done, slots.last_one(lambda h: flipped(h, 80)))
        slots.resumed('the newer slot with a flipped bit of the seal', done, slots.last_one(lambda h: flipped(h, 3)))
        slots.resumed('the newer slot empty', done, slots.last_one(lambda h: b''))
        slots.resumed('the newer slot with a byte after its end', done, slots.last_one(lambda h: h + b'\n'))
        slots.resumed('the slots swapped', done, held[::-1])
        slots.resumed('both slots truncated', DAMAGED, [held[0][:50], held[1][:70]], says='codes: damaged checkpoint\n')
        slots.resumed('one slot truncated, the other empty', DAMAGED, [held[0][:50], b''])
        slots.resumed('a slot of 5 MiB', DAMAGED, [b'0' * (5 << 20), b''])
        slots.resumed('both slots empty', NO_CHECKPOINT, [b'', b''], says='codes: no checkpoint\n')
        three = sealed(dict(slots.state, version=3))
        slots.resumed('both slots of version 3', DAMAGED, [three, three])
        slots.resumed('a slot of version 3 beside one of version 2', done, slots.last_one(lambda h: three))
        spaced = json.dumps(slots.state, indent=1).encode()
        slots.resumed('a body with blanks', done, slots.last_one(lambda h: hashlib.sha256(spaced).hexdigest().encode() + b'\n' + spaced))
        other = 'codes: checkpoint of another script or budget\n'
        slots.resumed('of another script', OTHER_SCRIPT, held, script=b'# ' + SCRIPTS[name], says=other)
        slots.resumed('of another budget', OTHER_SCRIPT, slots.forged(budget=budget + 1), says=other)
        unfit = 'codes: checkpoint does not fit query %d\n'
        slots.resumed('a forged weight', UNFIT, slots.forged(weight=slots.state['weight'] + 1), says=unfit % 0)
        slots.resumed('a forged place', UNFIT, slots.forged(place=slots.state['blocks'] * 4096), says=unfit % 0)
        early = [slots.state[key] for key in ('blocks', 'weight', 'place')]
        slots.resumed('a settled record before the end of its search', UNFIT, slots.forged(done=[early]), says=unfit % 0)
        for i in (0, 1):
            folder.write(i, held[i])
        folder.session('resume', 'keep=yes')
        slots = Slots(checks, folder, wanted)
        whole = [slots.state[key] for key in ('blocks', 'weight', 'place')]
        slots.resumed('a record more than there are searches', UNFIT, slots.forged(done=[whole]), says=unfit % 1)


def earlier_versions(checks, program):
    """Checkpoints of version 1: a code whose weights are divisible by 4 is searched from the start, another one is resumed."""
    rows = [
        (EXTENDED_GOLAY, 8, b'distance 8 word ' + GOLAY_WORD + b',1] blocks 3\n', [1, 2, 3], 7, 3),
        (GOLAY, 7, b'distance 7 word ' + GOLAY_WORD + b'] blocks 6\n', [6], 5, 6),
    ]
    for script, weight, text, blocks, turn, last in rows:
        with Folder(program, script, 1 << 20) as folder:
            folder.write(0, checkpoint(script, 1 << 20, 1, 4, 5, weight, 0))
            status, out, err = folder.session('resume', 'keep=yes')
            checks.that((status, out) == (DONE, text), 'version 1: status %d, %s' % (status, out))
            checks.that([r[1] for r in records_in(err)] == blocks, 'version 1: records %s' % records_in(err))
            state = body_in(folder.read(turn % 2))
            checks.that((state['version'], state['turn'], state['blocks']) == (2, turn, last), 'version 1: the last checkpoint %s' % state)


def long_checkpoints(checks, program):
    """Checkpoints of 5,000 bytes, as a script of 600 searches leaves them, and one of 320,000, as another program may write it."""
    begin, search = b'C := HammingCode(3,GF(2));\n', b'MinimumDistance(C);\n'
    line, record = b'distance 3 word [1,0,0,0,0,1,1] blocks 2\n', [2, 3, 0]
    with Folder(program, begin + search * 600, 1 << 20) as folder:
        status, out, _, count = in_slices(folder, 500)
        checks.that((status, out, count) == (DONE, line * 600, 3), '600 searches in slices: status %d after %d sessions' % (status, count))
        slots = folder.both()
        checks.that(all(is_sealed(slot) and len(slot) > 4096 for slot in slots), 'long checkpoints: %s bytes' % [len(s) for s in slots])
        state = body_in(max(slots, key=len))
    with Folder(program, begin + search * 40000, 1 << 20) as folder:
        digest = hashlib.sha256(folder.script).hexdigest()
        folder.write(1, sealed({**state, 'script': digest, 'turn': 1, 'done': [record] * 39999}))
        status, out, _ = folder.session('resume', 'keep=yes')
        checks.that((status, out) == (DONE, line * 40000), 'a checkpoint of 320,000 bytes: status %d, %d bytes' % (status, len(out)))
        checks.that(is_sealed(folder.read(0)) and len(folder.read(0)) > 300000, 'the checkpoint after it: %d bytes' % len(folder.read(0)))


def links(checks, program):
    """Links at the names of the files that a store makes. They are replaced, and what they name stays as it was."""
    text = b'distance 7 word ' + GOLAY_WORD + b'] blocks 6\n'
    for name in ('codes.slot0', 'codes.slot1', 'codes.slot0.new', 'codes.slot1.new'):
        with Folder(program, GOLAY, 1 << 20) as folder, tempfile.TemporaryDirectory() as elsewhere:
            other = os.path.join(elsewhere, 'other')
            with open(other, 'w') as file:
                file.write('no slot\n')
            os.symlink(other, os.path.join(folder.path, name))
            status, out, _ = folder.session('run', 'keep=yes')
            with open(other) as file:
                kept = file.read() == 'no slot\n'
            linked = any(os.path.islink(folder.slot(i)) for i in (0, 1))
            checks.that((status, out, kept, linked) == (DONE, text, True, False), 'a link at %s: status %d' % (name, status))


# no file grows: what a full disk does to a session
NO_ROOM = ('bash', '-c', 'trap "" XFSZ; ulimit -f 0; exec "$@"', 'no_room')
NOBODY = 65534


def full_disk(checks, program, budget):
    with Folder(program, SCRIPTS['one search'], budget) as folder:
        wanted = folder.session('run')[:2]
        checks.that(folder.session('run', before=NO_ROOM)[:2] == wanted, 'no room: a session that keeps nothing')
        status, out, err = folder.session('run', 'keep=yes', before=NO_ROOM)
        checks.that((status, out) == (VAULT_FAULT, b'') and err.endswith('codes: vault fault\n'), 'no room: status %d' % status)
        folder.session('run', 'keep=yes', 'slice=%d' % (budget // 4))
        held = folder.both()
        status = folder.session('resume', 'keep=yes', before=NO_ROOM)[0]
        checks.that(status == VAULT_FAULT and held == folder.both(), 'no room for resume: status %d, or a slot is gone' % status)
        checks.that(folder.session('resume', 'keep=yes')[:2] == wanted, 'the text once there is room')


def read_only_folder(checks, program, budget):
    with Folder(program, SCRIPTS['one search'], budget) as folder:
        folder.session('run', 'keep=yes', 'slice=%d' % (budget // 4))
        held = folder.both()
        os.chmod(folder.path, 0o555)
        user = {'user': NOBODY, 'group': NOBODY, 'extra_groups': []} if os.geteuid() == 0 else {}
        try:
            status = folder.session('resume', 'keep=yes', **user)[0]
        except PermissionError:
            status = 126
        finally:
            os.chmod(folder.path, 0o755)
        if status in (126, 127):
            return  # nobody may not run the program
        checks.that(status == VAULT_FAULT and held == folder.both(), 'a folder that is read only: status %d, or a slot is gone' % status)


def faulty_folders(checks, program, budget):
    with Folder(program, SCRIPTS['one search'], budget) as folder:
        for i in (0, 1):
            os.mkdir(folder.slot(i) + '.new')
        checks.that(folder.session('run', 'keep=yes')[0] == VAULT_FAULT, 'a folder in which no file can be made')
    with Folder(program, SCRIPTS['one search'], budget) as folder:
        os.mkdir(folder.slot(0))
        checks.that(folder.session('resume')[0] == VAULT_FAULT, 'a slot that is a folder')
        checks.that(folder.session('run', 'keep=yes')[0] == VAULT_FAULT, 'a slot that is a folder can not be emptied')


# the calls of the kernel by which a session opens, writes, syncs and renames a file, and a way in which each may fail
FAULTS = {'openat': 'EMFILE', 'write': 'ENOSPC', 'fsync': 'EIO', 'rename': 'EIO'}


def traced(call, log, *more):
    return ('strace', '-f', '-qq', '-o', log, '-e', 'trace=' + call, *more)


def calls_of_a_session(program, call):
    """The numbers, from 1, of these calls in a session that keeps its checkpoints; of those that open a file, those that open a
    slot. None if there is no strace, or it may not be used."""
    if shutil.which('strace') is None:
        return None
    with Folder(program, GOLAY, 1 << 20) as folder:
        log = os.path.join(folder.path, 'log')
        if folder.session('run', 'keep=yes', before=traced(call, log))[0] != DONE:
            return None
        with open(log) as lines:
            return [i for i, line in enumerate(lines, 1) if call != 'openat' or 'codes.slot' in line]


def at_each_call(checks, program, call, what):
    """A session of which one call of the kernel after another is the last, or fails, and the session after it. None may leave a
    slot that is no checkpoint."""
    numbers = calls_of_a_session(program, call)
    if numbers is None:
        return
    checks.that(len(numbers) >= 8, '%s: only %d calls' % (call, len(numbers)))
    text = b'distance 7 word ' + GOLAY_WORD + b'] blocks 6\n'
    for number in numbers:
        with Folder(program, GOLAY, 1 << 20) as folder:
            before = traced(call, '/dev/null', '-e', 'inject=%s:%s:when=%d' % (call, what, number))
            status, out, _ = folder.session('run', 'keep=yes', before=before)
            name = '%s %d %s: status %d' % (call, number, what, status)
            if call in ('fsync', 'rename') and what.startswith('error'):
                checks.that(status == VAULT_FAULT, name + ', passed over')
            checks.that(out == text if status == DONE else text.startswith(out), name + ', or another text')
            checks.that(all(is_sealed(slot) for slot in folder.both() if slot), name + ', and a slot that is no checkpoint')
            again, out, _ = folder.session('resume', 'keep=yes')
            wanted = (DONE, text) if any(folder.both()) else (NO_CHECKPOINT, b'')
            checks.that((again, out) == wanted, '%s, then %d' % (name, again))


def record_lines(checks, program, budget):
    with Folder(program, SCRIPTS['two searches'], budget) as folder:
        wanted, text, err = folder.session('run')
        lines = [line.split() for line in err.splitlines()]
        right = all(l[::2] == ['query', 'blocks', 'bound', 'best'] and len(l) == 8 for l in lines)
        keys = [r[:2] for r in records_in(err)]
        rising = all(a < b for a, b in zip(keys, keys[1:])) and {k[0] for k in keys} == {0, 1}
        checks.that(right and rising, 'the record lines')
        checks.that(folder.session('run', 'workers=3')[2] == err, 'the record lines of three workers')
        process = subprocess.Popen(
            ['bash', '-c', 'exec "$0" run "$1" keep=yes 2>&-', folder.program, 'budget=%d' % folder.budget], cwd=folder.path,
            stdin=subprocess.PIPE, stdout=subprocess.PIPE)
        out, _ = process.communicate(folder.script)
        checks.that((process.returncode, out) == (wanted, text), 'standard error closed: status %d' % process.returncode)


def dangling_stop_file(checks, program):
    """A link codes.stop that leads nowhere is no stop file."""
    with Folder(program, GOLAY, 1 << 20) as folder:
        os.symlink('nowhere', folder.stop_file())
        status, out, _ = folder.session('run', 'keep=yes')
        checks.that((status, out) == (DONE, b'distance 7 word ' + GOLAY_WORD + b'] blocks 6\n'), 'a link codes.stop to nowhere: status %d' % status)


def full_standard_error(checks, program):
    """After the first record line that can't be written there are no more, and the session goes on."""
    if calls_of_a_session(program, 'write') is None:
        return
    with Folder(program, GOLAY, 1 << 20) as folder, open('/dev/full', 'wb') as full:
        log = os.path.join(folder.path, 'log')
        args = [*traced('write', log), program, 'run']
        process = subprocess.Popen(args, cwd=folder.path, stdin=subprocess.PIPE, stdout=subprocess.PIPE, stderr=full)
        out, _ = process.communicate(folder.script)
        with open(log) as lines:
            tried = sum('write(2,' in line for line in lines)
        wanted = (DONE, b'distance 7 word ' + GOLAY_WORD + b'] blocks 6\n', 1)
        checks.that((process.returncode, out, tried) == wanted, 'standard error is full: status %d, %d lines tried' % (process.returncode, tried))


def main():
    if not 2 <= len(sys.argv) <= 3:
        sys.exit(__doc__)
    program = os.path.abspath(sys.argv[1])
    kills = int(sys.argv[2]) if len(sys.argv) == 3 else 200
    checks, budget = Checks(), budget_for(program)
    parts = [lambda seed=seed: kill_at_random(checks, program, budget, -(-kills // LANES), seed) for seed in range(LANES)]
    for part in (stop_file, slices, changed_slots, full_disk, read_only_folder, faulty_folders, record_lines):
        parts.append(lambda part=part: part(checks, program, budget))
    for part in (earlier_versions, example, longest_rounds, long_checkpoints, links, dangling_stop_file, full_standard_error):
        parts.append(lambda part=part: part(checks, program))
    for call, error in FAULTS.items():
        for what in ('signal=KILL', 'error=' + error):
            parts.append(lambda call=call, what=what: at_each_call(checks, program, call, what))
    with ThreadPoolExecutor(LANES) as lanes:
        for ran in [lanes.submit(part) for part in parts]:
            ran.result()
    print('%d passed, %d failed' % (checks.passed, checks.failed))
    sys.exit(checks.failed > 0)


main()
