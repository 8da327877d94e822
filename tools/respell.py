#!/usr/bin/env python3
"""Brings the names of definitions, types and lemmas to the spelling of the language's library.

A type or a statement is in upper camel case (`Five-then-other` is `FiveThenOther`), a definition, a constructor or a record's field in
snake case (`frame-data` is `frame_data`). In a lemma's name a dash stays between two names, also where one is an operator
(`length-bits-of` is `length-bits_of`), and every other dash is an underscore. Functions of src/, strings, inputs and outputs keep
their names, and so do the names that the prover makes: those of goals, and those of the steps in `c`, `w` and `l`.

usage: python3 tools/respell.py        once, at the top of the repository, right behind the kit's own script
"""
import glob
import re
import sys

# Words of the library that a lemma of ours names beside our own.
LIBRARY = set('length take drop map append reverse sum mod add mul sub div pow shr xor not suc zero true false cond'.split())
OPERATORS = {'++', '∷'}

# Names that don't follow from the words of the old ones.
BY_HAND = {'boolByte-is': 'bool_byte-is', 'getD-none': 'get_or-none'}

HEAD = re.compile(r"(?m)^(?:abbrev |unfoldable )?(?:pub )?(?:abbrev )?(data |record |ruleset )?([^\s(){}.,;]+)(?=[ :])[^\n]*? :(?= |$)")
FIELD = re.compile(r"(?m)^  (?:pub )?([^\s(){}.,;]+) :(?= |$)")
TOKEN = re.compile(r"[^\s(){}.,;`\"]+")


def read(path):
    with open(path, encoding='utf-8') as f:
        return f.read()


def files(folder, suffix):
    return sorted(glob.glob(f'crates/*/{folder}/**/*{suffix}', recursive=True))


def camel(name):
    """Upper camel case; between two digits an underscore stays, since they would run together."""
    joined = ''
    for word in name.split('-'):
        joined += '_' + word if joined[-1:].isdigit() and word[:1].isdigit() else word[:1].upper() + word[1:]
    return joined


def snake(name):
    return name.replace('-', '_')


def lemma(name, known):
    """The words of a lemma's name, put together by the longest names that are known."""
    words, parts = name.replace('_', '-').split('-'), []
    while words:
        end = next((n for n in range(len(words), 0, -1) if '_'.join(words[:n]) in known), 1)
        part = '_'.join(words[:end])
        parts.append((part, part in known or part in OPERATORS))
        words = words[end:]
    text, named = parts[0]
    for part, is_name in parts[1:]:
        text += ('-' if named and is_name else '_') + part
        named = is_name
    return text


def names():
    """Every name that is declared in specs/ and proofs/ with a dash, and what stands for it."""
    new, specs, lemmas = {}, set(), set()
    for path in files('specs', '.antt') + files('proofs', '.antt'):
        text, fields = read(path), set()
        for match in FIELD.finditer(text):
            fields.add(match[1])
        for match in HEAD.finditer(text):
            name, statement = match[2], match[0]
            if name[0].isupper():
                new[name] = camel(name)
            elif f': goal.{name}' in text[match.start():match.start() + 2 * len(name) + 40] or text[match.end():].startswith(' goal.'):
                continue
            elif '/specs/' in path:
                specs.add(name)
            else:
                lemmas.add(name)
        # What stands indented is a record's field or a constructor in specs/, and a lemma below shared arguments in proofs/.
        if '/specs/' in path:
            new |= {name: snake(name) for name in fields}
        else:
            lemmas |= fields
    for name in specs:
        new[name] = snake(name)
    known = {snake(n) for n in specs} | LIBRARY
    for name in lemmas - specs:
        new.setdefault(name, lemma(name, known))
    new |= {old: name for old, name in BY_HAND.items() if old in new}
    return {old: name for old, name in new.items() if old != name and '-' in old}


def fall_together(new):
    """Names that would be one, or that would be as one that stands."""
    declared = set()
    for path in files('specs', '.antt') + files('proofs', '.antt'):
        text = read(path)
        declared |= {m[2] for m in HEAD.finditer(text)} | {m[1] for m in FIELD.finditer(text)}
    back = {}
    for old, name in sorted(new.items()):
        back.setdefault(name, [n for n in declared if n == name]).append(old)
    return {name: olds for name, olds in back.items() if len(olds) > 1}


def respell(text, new):
    def turned(match):
        token, before = match[0], text[:match.start()]
        # The first part of a path from `c`, `w` or `l` is a step that the prover named.
        if re.search(r'(?<![^\s(){},;])[cwl]\.$', before[-3:]) or before.endswith('goal.'):
            return token
        return new.get(token, token)

    return TOKEN.sub(turned, text)


def main():
    new = names()
    both = fall_together(new)
    for name, olds in both.items():
        print(f'falls together: {name}: {", ".join(olds)}')
    changed = 0
    for path in files('specs', '.antt') + files('proofs', '.antt') + files('src', '.rt'):
        old = read(path)
        text = respell(old, new)
        if text != old:
            changed += 1
            with open(path, 'w', encoding='utf-8') as f:
                f.write(text)
    # The pages name definitions and lemmas between backticks.
    for path in ['README.md', *sorted(glob.glob('docs/*.md'))]:
        old = read(path)
        text = re.sub(r'`[^`\n]+`', lambda m: respell(m[0], new), old)
        if text != old:
            changed += 1
            with open(path, 'w', encoding='utf-8') as f:
                f.write(text)
    print(f'{len(new)} names respelled, in {changed} files')
    if len(sys.argv) > 1 and sys.argv[1] == '--list':
        for old, name in sorted(new.items()):
            print(f'{old} {name}')


if __name__ == '__main__':
    main()
