#!/usr/bin/env python3
"""Prints the rows of tests/rows/decoding.md whose names begin with `decode all` and `decode errors`: scripts that decode, with
their texts.

    tools/decoded_words.py

The words are found by plain means, never by the program: all words of a small code are listed, and each received word is
compared with all of them. Errors are put at pseudo-random coordinates; as long as they are few, the word that was sent is
known besides, and must be the one found.
"""
from itertools import product as tuples
from random import Random

import reference
from linear_algebra import span
from reference import FieldValue, arithmetic, text_of


def words_of(code):
    return sorted({tuple(word) for word in span(arithmetic(code.size), code.length, code.rows)})


def error_between(code, received, word):
    field = arithmetic(code.size)
    return field.add_scaled(list(received), reference.negative(field, 1), list(word))


def nearest(code, received, words):
    """The word whose error comes first, by weight and then lexicographically."""
    errors = ((error_between(code, received, word), word) for word in words)
    return list(min(errors, key=lambda pair: (reference.weight_of(pair[0]), list(pair[0])))[1])


def within(code, received, words):
    """The one word within half of the form's checks; None if there is none."""
    most = code.form.r // 2
    found = [word for word in words if reference.weight_of(error_between(code, received, word)) <= most]
    assert len(found) <= 1
    return list(found[0]) if found else None


def with_errors(random, code, word, count):
    received, field = list(word), arithmetic(code.size)
    for i in random.sample(range(code.length), count):
        received[i] = field.sums[received[i]][random.randrange(1, code.size)]
    return received


def all_words(call, code):
    words = words_of(code)
    for received in tuples(range(code.size), repeat=code.length):
        yield f"Decode({call},{text_of(list(received))});", text_of(nearest(code, received, words))


def nearest_rows(random, call, code, errors):
    words = words_of(code)
    for count in errors:
        for _ in range(4):
            received = with_errors(random, code, random.choice(words), count)
            yield f"Decode({call},{text_of(received)});", text_of(nearest(code, received, words))


def form_rows(random, call, code, beyond):
    words, most = words_of(code), code.form.r // 2
    for count in range(min(most + beyond, code.length) + 1):
        for _ in range(3):
            sent = random.choice(words)
            received = with_errors(random, code, sent, count)
            found = within(code, received, words)
            assert count > most or found == list(sent)
            yield f"AlgebraicDecode({call},{text_of(received)});", text_of(found) if found else "none"


def named(name, call, rows):
    return [f"{name} := {call};"] + [line for line, _ in rows], [text for _, text in rows]


def rows():
    """The name of each row, its statements and its lines."""
    random, f = Random(1), FieldValue
    hamming, tetra = reference.hamming_code(3, f(2)), reference.generator_mat_code([[1, 0, 1, 1], [0, 1, 1, 2]], f(3))
    yield "decode_all_words_of_a_hamming_code", *named("C", "HammingCode(3,GF(2))", list(all_words("C", hamming)))
    call = "GeneratorMatCode([[1,0,1,1],[0,1,1,2]],GF(3))"
    yield "decode_all_words_of_a_ternary_code", *named("C", call, list(all_words("C", tetra)))
    for name, code in (("BinaryGolayCode()", reference.binary_golay_code()), ("TernaryGolayCode()", reference.ternary_golay_code())):
        label = "binary" if code.size == 2 else "ternary"
        yield f"decode_errors_in_a_{label}_golay_code", *named("C", name, list(nearest_rows(random, "C", code, range(5))))
    for length in (7, 8, 10, 12, 15):
        parts = []
        for k in (1, 2, 3):
            d = length - k + 1
            parts.append(named(f"C{k}", f"ReedSolomonCode({length},{d})", list(form_rows(random, f"C{k}", reference.reed_solomon_code(length, d), 1))))
        yield f"decode_errors_in_reed_solomon_codes_of_length_{length}", [s for a, _ in parts for s in a], [t for _, b in parts for t in b]
    goppa = "GoppaCode([1,1,1],[0,1,2,3,4,5,6,7],GF(8),GF(2))"
    code = reference.goppa_code([1, 1, 1], list(range(8)), f(8), f(2))
    yield "decode_errors_in_a_goppa_code", *named("C", goppa, list(form_rows(random, "C", code, 2)))
    code = reference.bch_code(31, 11, f(2))
    yield "decode_errors_in_a_bch_code", *named("C", "BCHCode(31,11,GF(2))", list(form_rows(random, "C", code, 2)))
    code = reference.bch_code(26, 14, f(3))
    yield "decode_errors_in_a_ternary_bch_code", *named("C", "BCHCode(26,14,GF(3))", list(form_rows(random, "C", code, 1)))
    code = reference.alternant_code(1, [0, 1, 2, 3, 4], [1, 2, 3, 4, 1], f(5), f(5))
    call = "AlternantCode(1,[0,1,2,3,4],[1,2,3,4,1],GF(5),GF(5))"
    yield "decode_errors_with_one_check", *named("C", call, list(form_rows(random, "C", code, 1)))
    code = reference.bch_code(15, 15, f(2))
    yield "decode_errors_in_a_code_of_one_word_and_its_multiples", *named("C", "BCHCode(15,15,GF(2))", list(form_rows(random, "C", code, 1)))


def main():
    for name, statements, lines in rows():
        script, text = "\n".join(statements), "\n".join(lines)
        print(f"### {name.replace('_', ' ')}\n\n```codes\n{script}\n\n```\n\n```text\n{text}\n```\n")


if __name__ == "__main__":
    main()
