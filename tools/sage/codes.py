"""Minimum distances of Sage's linear codes, by the program `codes`.

    load("tools/sage/codes.py")
    codes_distance(C)
    codes_distance(C, budget=2**24, workers=4, program="/usr/local/bin/codes", progress=print)

C is a linear code of Sage over 2, 3, 4, 5, 7, 8, 9, 11, 13 or 16 elements, of length at most 255 and dimension at least 1. The
answer is a dictionary: `low` and `high`, two numbers between which the minimum distance lies (equal if the search was
finished), `word`, a codeword of weight `high` as a vector over C's field, and `blocks`, how many blocks of 4,096 words were
searched. `budget` is the most blocks of a search, 2^20 by default; `workers` the number of threads; `program` the path of
`codes`; `progress` a function that is called for each round of the search with the line that `codes` writes of it.

Elements of 4, 8, 9 and 16 elements are numbered by the powers of a zero of the Conway polynomial. That is the generator of GF(q) unless
another modulus was asked for; then the first zero in the field is taken, and the code that is searched is an image of C under an
isomorphism of fields, with the same distance. The word is C's own, and it is an error if it isn't a word of C.
"""
import subprocess

CONWAY = {4: [1, 1, 1], 8: [1, 1, 0, 1], 9: [2, 2, 1], 16: [1, 1, 0, 0, 1]}  # from the constant upwards
POWERS = {
    4: [1, 2, 3],
    8: [1, 2, 4, 3, 6, 7, 5],
    9: [1, 3, 4, 7, 2, 6, 8, 5],
    16: [1, 2, 4, 8, 3, 6, 12, 11, 5, 10, 7, 14, 15, 13, 9],
}
PRIMES = (2, 3, 5, 7, 11, 13)
LONGEST = 255


def codes_zero(field):
    """A zero of the Conway polynomial in the field: its generator, if that is one."""
    coefficients = CONWAY[int(field.order())]
    return next(x for x in [field.gen(), *field] if sum(field(c) * x ** i for i, c in enumerate(coefficients)) == 0)


def codes_numbers(field):
    """The number of each field element."""
    q = int(field.order())
    if q in PRIMES:
        return {field(n): n for n in range(q)}
    zero = codes_zero(field)
    numbers = {field(0): 0}
    numbers.update({zero ** i: n for i, n in enumerate(POWERS[q])})
    return numbers


def codes_need(C):
    """Raises an error if the program has no such codes."""
    q = int(C.base_field().order())
    if q not in PRIMES and q not in POWERS:
        raise ValueError('codes are over 2, 3, 4, 5, 7, 8, 9, 11, 13 or 16 elements, and this one is over %d' % q)
    if C.length() > LONGEST:
        raise ValueError('codes have length %d at most, and this one has length %d' % (LONGEST, C.length()))
    if C.dimension() == 0:
        raise ValueError('a code of dimension 0 has no nonzero word')


def codes_script(C):
    """The script that asks for the minimum distance."""
    field = C.base_field()
    numbers = codes_numbers(field)
    rows = [[numbers[x] for x in row] for row in C.generator_matrix().rows()]
    return 'MinimumDistance(GeneratorMatCode(%s,GF(%d)));\n' % (str(rows).replace(' ', ''), field.order())


def codes_run(script, options, program, progress):
    """The text of the script, which is one line."""
    pipe = subprocess.PIPE
    with subprocess.Popen([program, 'run', *options], stdin=pipe, stdout=pipe, stderr=pipe, text=True) as run:
        try:
            run.stdin.write(script)
            run.stdin.close()
        except BrokenPipeError:
            pass  # it has refused an argument
        said = []
        for line in run.stderr:
            if not line.startswith('query '):
                said.append(line)
            elif progress is not None:
                progress(line.rstrip('\n'))
        text = run.stdout.read()
    if run.returncode != 0:
        raise RuntimeError('codes ended with status %d: %s' % (run.returncode, (text + ''.join(said)).strip()))
    return text


def codes_distance(C, budget=None, workers=None, program='codes', progress=None):
    codes_need(C)
    elements = {n: x for x, n in codes_numbers(C.base_field()).items()}
    options = [key + '=%d' % value for key, value in (('budget', budget), ('workers', workers)) if value is not None]
    parts = codes_run(codes_script(C), options, program, progress).split()
    low, high = (parts[2], parts[4]) if parts[1] == 'between' else (parts[1], parts[1])
    symbols = next(part for part in parts if part.startswith('['))
    word = C.ambient_space()([elements[int(n)] for n in symbols[1:-1].split(',')])
    if word not in C or word.hamming_weight() != int(high):
        raise RuntimeError('codes answered a word that is no word of this code, or of another weight: %s' % word)
    return {'low': int(low), 'high': int(high), 'word': word, 'blocks': int(parts[-1])}
