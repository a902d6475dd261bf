"""tools/sage/codes.py with a stand-in for Sage: codes over each field, also by other moduli than the Conway polynomial, and mistakes.

The program is $CODES. Prints what fails, and ends with 1 if something does.
"""
import os
import random
import sys
import tempfile
from pathlib import Path

HERE = Path(__file__).resolve().parent
sys.path.insert(0, str(HERE))
from sage_stand_in import Code, Field

exec((HERE.parent.parent / 'tools/sage/codes.py').read_text())

FIELDS = [(2, [0, 1]), (3, [0, 1]), (5, [0, 1]), (7, [0, 1]), (11, [0, 1]), (13, [0, 1]), (2, [1, 1, 1]), (2, [1, 1, 0, 1]), (2, [1, 0, 1, 1]),
          (3, [2, 2, 1]), (3, [2, 1, 1]), (3, [1, 0, 1]), (2, [1, 1, 0, 0, 1]), (2, [1, 0, 0, 1, 1]), (2, [1, 1, 1, 1, 1])]
failed = []


def raises(kind, wanted, call):
    try:
        failed.append('no error: %s' % call())
    except kind as error:
        if wanted not in str(error):
            failed.append('%s: wanted %s' % (error, wanted))


def stand_in(text):
    """A program that prints this line of any script."""
    file = tempfile.NamedTemporaryFile('w', suffix='.sh', delete=False)
    with file:
        file.write('#!/bin/sh\ncat >/dev/null\necho "%s"\n' % text)
    os.chmod(file.name, 0o700)
    return file.name


random.seed(1)
program = os.environ['CODES']
for p, modulus in FIELDS:
    field = Field(p, modulus)
    elements = list(field)
    for _ in range(4):
        code = Code(field, [[random.choice(elements) for _ in range(7)] for _ in range(2)])
        if code.dimension() == 0:
            continue
        lines = []
        found = codes_distance(code, program=program, workers=2, progress=lines.append)
        if not found['low'] == found['high'] == code.distance() or found['word'] not in code:
            failed.append('%s %s: %s' % (p, modulus, found))
        if any(not line.startswith('query 0 blocks ') for line in lines):
            failed.append('%s' % lines)
two = Field(2, [0, 1])
hamming = Code(two, [[two(int(a)) for a in row] for row in ('1000011', '0100101', '0010110', '0001111')])
found = codes_distance(hamming, budget=1, program=program)
if (found['low'], found['high'], found['blocks']) != (2, 3, 1):
    failed.append(str(found))
raises(ValueError, 'over 25', lambda: codes_distance(Code(Field(5, [2, 4, 1]), [[Field(5, [2, 4, 1])(1)]])))
raises(ValueError, 'dimension 0', lambda: codes_distance(Code(two, [[two(0)]])))
raises(RuntimeError, 'status 2: codes: word 1 refused', lambda: codes_distance(hamming, budget=-1, program=program))
raises(TypeError, 'Budget', lambda: codes_distance(hamming, Budget=1))
for line in ('distance 3 word [1,0,0,0,0,0,0] blocks 2', 'distance 2 word [1,0,0,0,0,1,1] blocks 2'):
    wrong = stand_in(line)
    raises(RuntimeError, 'no word of this code', lambda: codes_distance(hamming, program=wrong))
    os.unlink(wrong)
print('\n'.join(failed) or 'done')
sys.exit(1 if failed else 0)
