#!/usr/bin/env python3
"""respell.py: brings this repository's own names to the spelling of today's Rattle.

Run once at the top of the repository, after port.py and before any edit by hand. Definitions, lemmas and fields of
specs/ and proofs/ go from camel case to snake case (`dueAfter` to `due_after`; a dash still joins the parts of a
lemma's name); types, facts and modules keep their capitals. Functions of src/, exported C names, strings, inputs and
outputs keep their names. Beside that:

- the module `Contracts` of a crate's specs/ is `Clauses`, since Rattle makes a module `specs.contracts` itself;
- a lemma that would have the name of a definition in its file gets `_lem`, and two offsets get `_of`, since a
  header's fields have their names;
- the definitions `old` and `new` go (basis/specs/Moments): the language has `x.now`, `x.old` and `x.new` for them;
- `result` of crate listing is `listed_result`, since `result` is a clause's word for what a function returns; with
  that its clauses lose their `λ r.`, which port.py had to leave.

README.md, docs/*.md and the must-fail edits are respelled too, by the same names alone; docs/changes keeps the names of its
time. What port.py itself respelled is left as it made it.
"""
import glob
import os
import re

# what falls together with a definition's new name in a file that has both
LEMMAS = ['all_read', 'answer_at', 'form_in', 'last_line', 'no_number', 'none_found', 'one_more', 'stored_of']
NAMED = {'answerOffset': 'answer_offset_of', 'subgoalOffset': 'subgoal_offset_of'}
PIECE = re.compile(r"(?<![\w'.])([a-z][A-Za-z0-9]*[a-z0-9][A-Z][A-Za-z0-9]*)(?![\w'])|(?<=\.)([a-z][A-Za-z0-9]*[a-z0-9][A-Z][A-Za-z0-9]*)(?![\w'])")
STRING = re.compile(r'b?"(?:[^"\\]|\\.)*"')


def snake(name):
    return NAMED.get(name) or re.sub(r'(?<=[a-z0-9])([A-Z])', lambda m: '_' + m[1].lower(), name)


def read(path):
    with open(path, encoding='utf-8') as f:
        return f.read()


def write(path, text):
    with open(path, 'w', encoding='utf-8') as f:
        f.write(text)


def sources():
    for pattern in ('crates/*/specs/**/*.antt', 'crates/*/proofs/**/*.antt', 'crates/*/src/**/*.rt'):
        yield from sorted(glob.glob(pattern, recursive=True))


def own_names(texts):
    """The camel-case words of the repository's definitions and proofs."""
    names = set()
    for path, text in texts.items():
        if path.endswith('.antt'):
            for m in PIECE.finditer(text):
                names.add(m[1] or m[2])
    return names


def respelled(text, names, strings=False):
    def turn(m):
        name = m[1] or m[2]
        return snake(name) if name in names else m[0]
    if strings:
        # strings of the code stay
        out, at = [], 0
        for s in STRING.finditer(text):
            out += [PIECE.sub(turn, text[at:s.start()]), s[0]]
            at = s.end()
        return ''.join(out) + PIECE.sub(turn, text[at:])
    return PIECE.sub(turn, text)


def lemmas_named(text):
    for name in LEMMAS:
        text = re.sub(r"(?<![\w'.+-])" + name + r"(?![\w'-])", name + '_lem', text)
    return text


def contracts_module(text):
    text = re.sub(r'(?<=\.specs\.)Contracts(?![\w\'])', 'Clauses', text)
    return re.sub(r'(?m)^(pub mod |mod )Contracts$', r'\1Clauses', text)


def listing_clause(text):
    """`λ r. ⌜ P ⌝` to `P` at the result."""
    def turn(m):
        return 'ensures { ' + re.sub(r"(?<![\w'.-])r(?![\w'-])", 'result', m[1]) + ' }'
    return re.sub(r'ensures\*? \{ λ r\. ⌜ (.*?) ⌝ \}', turn, text, flags=re.S)


def moments(text):
    """`(old x)` and `(new x)` in the clauses of a function to `x.now` of a `&`, `x.old` and `x.new` of a `&mut`."""
    def turn(m):
        signature = m[0]
        parameters = dict(re.findall(r'(\w+): (&(?:\'\w+ )?(?:mut )?)', signature))

        def moment(o):
            word, name, rest = o[1] or o[4], o[2] or o[5], o[3] or o[6] or ''
            kind = parameters.get(name)
            if kind is None:
                return o[0]
            return f"{name}.{word if 'mut' in kind else 'now'}{rest}"
        return re.sub(r'\((old|new) (\w+)((?:\.\w+)*)\)|(?<![\w.])(old|new) (\w+)((?:\.\w+)*)', moment, signature)
    return re.sub(r'(?m)^ *(?:pub )?(?:unsafe )?(?:extern "C" )?fn \w+.*?^ *\{$', turn, text, flags=re.S | re.M)


def main():
    if not os.path.exists('crates/basis/specs/Moments.antt'):
        raise SystemExit('respell.py: it has run here: nothing was changed')
    texts = {path: read(path) for path in sources()}
    names = own_names(texts)
    # the lemmas first, while definitions still have the other spelling
    for path, text in texts.items():
        new = lemmas_named(text) if path.endswith('.antt') else text
        if path.startswith('crates/listing/'):
            new = re.sub(r"(?<![\w'.-])result(?![\w'-])", 'listed_result', new)
            new = re.sub(r'(?<=specs\.Clauses\.\{)result(?=[,}])', 'listed_result', new)
            new = listing_clause(new) if path.endswith('.rt') else new
        new = contracts_module(respelled(new, names, strings=path.endswith('.rt')))
        if path.endswith('.rt'):
            new = re.sub(r'(?m)^ghost use Rattle\.basis\.specs\.Moments\..*\n', '', moments(new))
        if new != text:
            write(path, new)
    for path in sorted(glob.glob('crates/*/specs/Contracts.antt')):
        os.rename(path, path.replace('Contracts.antt', 'Clauses.antt'))
    os.remove('crates/basis/specs/Moments.antt')
    write('crates/basis/specs/Lib.antt', read('crates/basis/specs/Lib.antt').replace('pub mod Moments\n', ''))
    for path in ['README.md'] + sorted(glob.glob('docs/*.md')):
        write(path, re.sub(r'(?<=/)Contracts(?=\.antt|`|\b)', 'Clauses', respelled(read(path), names)))
    for path in sorted(glob.glob('crates/*/must-fail/*.edit')):
        lines = [contracts_module(respelled(line, names)) if line.startswith(('old: ', 'new: ')) else
                 line.replace('specs/Contracts.antt', 'specs/Clauses.antt') for line in read(path).split('\n')]
        write(path, '\n'.join(lines))


if __name__ == '__main__':
    main()
