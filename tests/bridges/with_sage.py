"""tools/sage/codes.py against Sage: over each field, codes of which both find the minimum distance. The program is $CODES."""
import os

from sage.all import GF, LinearCode, codes, random_matrix, set_random_seed

with open('tools/sage/codes.py') as file:
    exec(file.read())

program = os.environ['CODES']
set_random_seed(1)
for q in (2, 3, 4, 5, 7, 8, 9, 11, 13, 16):
    field = GF(q, 'a')
    for _ in range(3):
        code = LinearCode(random_matrix(field, 3, 8))
        if code.dimension() == 0:
            continue
        found = codes_distance(code, program=program)
        distance = code.minimum_distance()
        right = found['low'] == found['high'] == distance and found['word'] in code and found['word'].hamming_weight() == distance
        if not right:
            print('failed:', q, code.generator_matrix(), found)
found = codes_distance(codes.HammingCode(GF(2), 3), budget=1, workers=2, program=program)
if (found['low'], found['high'], found['blocks']) != (2, 3, 1):
    print('failed:', found)
print('done')
