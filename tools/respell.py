#!/usr/bin/env python3
"""Respells the names that the crates themselves declare in antt: tools/respell.py, once, at the top, behind the toolchain's own port.

Types and modules stand in upper camel case, all else in snake case: definitions, fields, constructors, ghost names. In the name of a law a dash joins the names
that it speaks of (`pieces_past-drop`), and plain words are joined by `_`. A prime is an apostrophe. Functions of src/, exported names, strings, inputs and outputs
keep their names. Turned are the files of specs/ and proofs/, the clauses, ghost items and comments of src/, and the edits of must-fail/. Names that the prover
makes (`Need-..`, `After-..`, paths below `declared` and `contracts`) are left alone. Prints the names that fall together, writes nothing then, and ends with
status 1; else prints what each name became, for the pages.
"""
import os
import re
import sys
from collections import defaultdict

TOP = os.path.dirname(os.path.dirname(os.path.abspath(__file__)))
CRATES = os.path.join(TOP, 'crates')
TOKEN = re.compile(r"[^\s(){}\[\].,;:\"`«»@|]+")
DECLARED = re.compile(r"^( *)((?:(?:pub|abbrev|unfoldable|data|record) )*)([^\s:(){}=.,;]+)(?= (?::|\(|\{))")
FUNCTION = re.compile(r'\bfn (\w+)')
MADE = re.compile(r"tie\.|goal\.")
PROOF = re.compile(r'/Proof\.antt$|/proofs/.+/(?:Invariants|Answers)\.antt$')
# Words that are names of the logic in a law's name.
SIGNS = {'nil', 'cons', 'zero', 'suc', 'one', 'true', 'false'}
# Names of definitions that are plain words elsewhere: they don't stand for the definition in the name of a law.
PLAIN = {
    'of', 'at', 'to', 'in', 'is', 'as', 'by', 'end', 'start', 'no', 'all', 'any', 'some', 'none', 'left', 'more', 'same', 'last', 'first', 'here', 'back', 'good',
    'rest', 'on', 'off', 'not', 'and', 'or', 'up', 'down', 'out', 'for', 'with', 'behind', 'before', 'after', 'two', 'three', 'four', 'six', 'it', 'other', 'next',
}


def read(path):
    with open(path, encoding='utf-8') as opened:
        return opened.read()


def files(ending, *folders):
    for crate in sorted(os.listdir(CRATES)):
        for folder in folders:
            for at, below, names in os.walk(os.path.join(CRATES, crate, folder)):
                below.sort()
                for name in sorted(names):
                    if name.endswith(ending):
                        yield os.path.join(at, name)


def declared(path):
    """What a file of antt declares: name, and whether it is a definition, a field, a constructor or a type, and no law."""
    inside = []
    for line in read(path).split('\n'):
        space = len(line) - len(line.lstrip(' '))
        if not line.strip() or line.lstrip().startswith('--'):
            continue
        while inside and space <= inside[-1]:
            inside.pop()
        found = DECLARED.match(line)
        if found:
            words, name = found.group(2).split(), found.group(3)
            if name not in ('use', 'module', 'mod', 'unfolding', 'let', 'λ', 'open') and '◌' not in name:
                yield name, bool(inside) or bool({'abbrev', 'unfoldable', 'data', 'record'} & set(words)), line[found.end():]
            if {'data', 'record'} & set(words):
                inside.append(space)


def imported(text):
    """The names that a file takes from elsewhere than this repository's crates."""
    found = set()
    for module, names in re.findall(r'^(?:ghost )?use ([^\s{;]+)\.\{([^}]*)\}', text, re.M):
        if not re.match(r'Rattle\.(?!std\.)', module):
            found |= {name.split(' as ')[0].strip() for name in names.split(',')}
    return found


def camel(name):
    return ''.join(part[:1].upper() + part[1:] for part in name.split('-'))


def law(name, words):
    """Where the name of a law is names throughout, dashes join them."""
    parts, found, at = name.split('-'), [], 0
    while at < len(parts):
        for to in range(len(parts), at, -1):
            whole = '_'.join(parts[at:to])
            if whole in words and (to - at > 1 or whole not in PLAIN) or whole in SIGNS:
                found.append(whole)
                break
        else:
            return '_'.join(parts)
        at = to
    return '-'.join(found)


def plan():
    """What each name becomes."""
    definitions, laws, all_names, lib = set(), set(), set(), set()
    for path in files('.antt', 'specs', 'proofs'):
        lib |= imported(read(path))
        if PROOF.search(path):
            continue
        for name, is_definition, _ in declared(path):
            all_names.add(name)
            (definitions if is_definition or '/specs/' in path or name[:1].isupper() else laws).add(name)
    words = {name.replace('-', '_') for name in definitions if not name[:1].isupper()}
    words |= {name for name in lib if re.fullmatch(r'[a-z]\w*', name)}
    words |= {name for path in files('.rt', 'src') for name in FUNCTION.findall(read(path))}
    new = {}
    for name in sorted(all_names):
        plain = name.replace('′', "'")
        if '-' not in plain and plain == name:
            continue
        if plain[:1].isupper():
            new[name] = camel(plain)
        elif name in definitions:
            new[name] = plain.replace('-', '_')
        else:
            new[name] = law(plain, words)
    taken = defaultdict(set)
    for name in all_names:
        taken[new.get(name, name)].add(name)
    wrong = {to: names for to, names in taken.items() if len(names) > 1}
    return {a: b for a, b in new.items() if a != b}, wrong


def own(path, text):
    """What a proof of a function declares for itself becomes snake case too; its theorem is `f_spec`."""
    found = {}
    if PROOF.search(path):
        for name, _, rest in declared(path):
            if '-' in name and not MADE.search(rest) and not name[:1].isupper():
                found[name] = name.replace('-', '_')
    return found


def turn(text, names):
    return TOKEN.sub(lambda found: names.get(found.group(0), found.group(0)), text)


def clauses(text, names):
    """Turns a file of src/: what stands in a clause, a ghost item or a comment, and nothing else."""
    lines, depth = [], 0
    for line in text.split('\n'):
        code, mark, comment = line.partition('//')
        if '"' in code and mark:
            code, mark, comment = line, '', ''
        starts = re.match(r'\s*(?:requires|ensures|ghost)\b', code)
        if depth or starts:
            depth += code.count('{') - code.count('}')
            code = turn(code, names)
        if mark:
            comment = re.sub(r'`([^`]*)`', lambda found: '`' + turn(found.group(1), names) + '`', comment)
        lines.append(code + mark + comment)
    return '\n'.join(lines)


def half_turned():
    """Names that the port turned where they are declared, and not everywhere else: in the edits, and where a module is called Answers."""
    known = {name for path in files('.antt', 'specs', 'proofs') if not PROOF.search(path) for name, _, _ in declared(path)}
    return {name.replace('_', '-'): name for name in known if '_' in name and '-' not in name and name.replace('_', '-') not in known}


def edits(names):
    """Turns the edits, of which the port turns none."""
    turned = half_turned()
    for path in files('.edit', 'must-fail'):
        lines = []
        for line in read(path).split('\n'):
            word, mark, rest = line.partition(':')
            lines.append(f'{word}{mark}{turn(rest, turned | names)}' if word in ('old', 'new') else line)
        with open(path, 'w', encoding='utf-8') as out:
            out.write('\n'.join(lines))


def main():
    names, wrong = plan()
    for to, both in sorted(wrong.items()):
        print(f'{to}: {" and ".join(sorted(both))} fall together')
    if wrong:
        return 1
    names = half_turned() | names
    for path in files('.antt', 'specs', 'proofs'):
        text = read(path)
        taken = imported(text)
        there = {a: b for a, b in names.items() if a not in taken} | own(path, text)
        made = turn(text, there)
        if made != text:
            with open(path, 'w', encoding='utf-8') as out:
                out.write(made)
    for path in files('.rt', 'src'):
        text = read(path)
        made = clauses(text, names)
        if made != text:
            with open(path, 'w', encoding='utf-8') as out:
                out.write(made)
    edits(names)
    for name in sorted(names):
        print(f'{name}\t{names[name]}')
    return 0


if __name__ == '__main__':
    sys.exit(main())
