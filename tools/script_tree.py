#!/usr/bin/env python3
"""Prints the tree of a script and the spans of its tokens, in the form in which a test of lc_parse compares them.

Usage: python3 tools/script_tree.py < SCRIPT
The first line has the first byte of each token and the byte behind its last one, the second line is the tree, as `{:?}` writes it.
"""

import re
import sys

TOKEN = re.compile(r"(?:[ \t\r\n]|#[^\n]*)*([A-Za-z][A-Za-z0-9_]*|[0-9]+|:=|[()\[\],;])")


def scan(text):
    tokens = []
    at = 0
    while match := TOKEN.match(text, at):
        tokens.append((match.group(1), match.start(1), match.end(1)))
        at = match.end()
    return tokens


def elements(tokens, closer):
    found = []
    while tokens[0][0] != closer:
        found.append(expression(tokens))
        if tokens[0][0] == ",":
            tokens.pop(0)
    tokens.pop(0)
    return "[" + ", ".join(found) + "]"


def expression(tokens):
    word, place, _ = tokens.pop(0)
    if word == "[":
        node = f"List({elements(tokens, ']')})"
    elif word.isdigit():
        node = f"Number({int(word)})"
    elif tokens[0][0] == "(":
        tokens.pop(0)
        node = f'Call("{word}", {elements(tokens, ")")})'
    else:
        node = f'Name("{word}")'
    return f"Expr {{ place: {place}, node: {node} }}"


def statement(tokens):
    target = "None"
    if tokens[1][0] == ":=":
        target = f'Some("{tokens[0][0]}")'
        del tokens[:2]
    expr = expression(tokens)
    tokens.pop(0)
    return f"Statement {{ target: {target}, expr: {expr} }}"


def main():
    tokens = scan(sys.stdin.read())
    print("".join(f"{start}-{end} " for _, start, end in tokens))
    statements = []
    while tokens:
        statements.append(statement(tokens))
    print(f"Script {{ statements: [{', '.join(statements)}] }}")


if __name__ == "__main__":
    main()
