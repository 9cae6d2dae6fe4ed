#!/usr/bin/env python3
"""Prints docs/DEFINITIONS.md: what each word says that a public contract, or docs/PROOFS.md, names.

What it says is the comment above the definition. Where there is none, or one that leans on what stands before it,
docs/definitions.txt has it, a line each:

    CRATE MODULE WORD: comment

    tools/definitions.py            prints the page
    tools/definitions.py WORD..     prints the whole comment of each definition of these names, and its file
    tools/definitions.py --write    writes the page
    tools/definitions.py --check    fails where the page is another, or a word has no comment
"""
import pathlib
import re
import sys
import textwrap

TOP = pathlib.Path(__file__).resolve().parent.parent
PAGE = TOP / 'docs/DEFINITIONS.md'
PROOFS = TOP / 'docs/PROOFS.md'
SENTENCES = TOP / 'docs/definitions.txt'
WIDTH = 110
HEAD = '''# Definitions

What each word says that a contract of a public function names, or docs/PROOFS.md, by layers, lowest first.
Under `CRATE/MODULE` stand words of `crates/CRATE/specs/MODULE.antt` with the comment there;
`tools/definitions.py WORD` prints that of one word, with its file.

A **history** is a journal with the newest event first, so what came before an event is the rest of the list.
The **meaning** of a class is its calls as functions. Seats, blocks and stamps are numbers. Of a source
contracts read the bytes that are `left`, of a sink its `contents`, of images what is `held` under each name,
where the object tells them, and of each the count of `faults`. Ghost members of traits are said where the
trait stands.
'''

DEFINED = re.compile(r"(?:(?:abbrev|unfoldable|opaque) pub (?:record |data )?|pub record |pub data |"
                     r"pub (?!mod |use |record |data ))([^\s:({]+)")
NAMED = re.compile(r"Rattle\.(spg\w*)\.specs\.([\w.]+?)\.\{([^}]*)\}|Rattle\.(spg\w*)\.specs\.([\w.]+) as (\w+)")
WORD = re.compile(r"[A-Za-z_][\w']*(?:\.[A-Za-z_][\w']*)?")
CLAUSE = re.compile(r"\b(?:requires|ensures|ghost)\b(?! use)")
HEADER = re.compile(r"[ \t]*(?:pub(?:\(crate\))? )?(?:(?:const|unsafe|extern \"C\") )*fn (\w+)")


def layers():
    """The groups of crates.txt, lowest first: what the comment above a group says, and its crates."""
    groups = []
    for line in (TOP / 'crates.txt').read_text().splitlines():
        if line.startswith('#'):
            groups.append((line[1:].strip(), []))
        elif ':' in line:
            groups[-1][1].append(line.split(':')[0].split()[0])
    return groups


def comment_above(lines, at):
    """The lines of comment that end right above line `at`, as one text."""
    said = []
    while at and lines[at - 1].lstrip().startswith('-- ') and not lines[at - 1].lstrip().startswith('-- ---'):
        at -= 1
        said.insert(0, lines[at].lstrip()[3:].strip())
    return ' '.join(said)


def definitions(crate):
    """Each public definition of a crate, as (crate, module, word), in order, with the comment above it."""
    specs = TOP / 'crates' / crate / 'specs'
    found = {}
    for path in sorted(specs.rglob('*.antt')):
        module = '.'.join(path.relative_to(specs).with_suffix('').parts)
        lines = path.read_text().splitlines()
        for at, line in enumerate(lines):
            text = line.lstrip()
            match = DEFINED.match(text)
            # Further in, a line that begins with `pub` alone is a field of a record.
            if match and (text == line or not re.match('pub (?!record |data )', text)):
                found.setdefault((crate, module, match.group(1)), comment_above(lines, at))
    return found


def exported(crate):
    """The names that the root file of a crate gives out."""
    root = TOP / 'crates' / crate / 'src/lib.rt'
    text = root.read_text() if root.exists() else ''
    given = ' '.join(re.findall(r'^pub use ([^;]*);', text, re.M))
    return set(WORD.findall(given)) | set(re.findall(r'^pub (?:fn|struct|trait|enum) (\w+)', text, re.M))


def clauses(text, given):
    """The clauses of a source that others see: those of functions, traits and types that the crate gives out."""
    lines = text.splitlines()
    holder, is_trait, out, at = None, False, [], 0
    while at < len(lines):
        line = lines[at]
        block = re.match(r'(?:pub )?(?:unsafe )?(impl|trait|struct|enum)\b(?:<[^{]*?> )?(?:[^{]*? for )?\s*(\w+)', line)
        if block:
            holder, is_trait = block.group(2), block.group(1) == 'trait'
        header = HEADER.match(line)
        if header:
            name = header.group(1) if indent_of(line) == 0 else holder
            begun, (at, said) = at, header_of(lines, at)
            seen = line.lstrip().startswith('pub ') or is_trait and indent_of(line)
            if seen and (name in given or 'extern "C"' in line):
                out.append(said)
            at = max(at, begun + 1)
            continue
        if holder in given and re.match(r'\s*(?:pub )?ghost (?!use)' if is_trait else r'\s*pub ghost (?!use)', line):
            out.append(line)
        at += 1
    return '\n'.join(out)


def indent_of(line):
    return len(line) - len(line.lstrip())


def header_of(lines, at):
    """The header of the function that begins at a line, as far as its body or its semicolon, and the line behind it."""
    indent = indent_of(lines[at])
    said = [lines[at]]
    at += 1
    if re.search(r'(?:;|\{)\s*$', said[0]) and not CLAUSE.search(said[0]):
        return at, said[0]
    while at < len(lines) and not (indent_of(lines[at]) == indent and lines[at].strip() in ('{', '}')):
        said.append(lines[at])
        at += 1
        if said[-1].rstrip().endswith(';') and indent_of(said[-1]) <= indent + 4:
            break
        if indent_of(said[-1]) == indent and said[-1].rstrip().endswith('{'):
            break
    return at, '\n'.join(said)


def names_of(text):
    """What each name of a source stands for: words by the name that they have there, and modules with another name."""
    words, modules = {}, {}
    for crate, module, listed, other, whole, name in NAMED.findall(text):
        if name:
            modules[name] = (other, whole)
            continue
        for part in listed.split(','):
            word, _, called = part.strip().partition(' as ')
            words[called or word] = (crate, module, word)
    return words, modules


def cited(crate):
    """The words that public clauses of a crate name."""
    out, given = set(), exported(crate)
    for path in (TOP / 'crates' / crate / 'src').rglob('*.rt'):
        text = path.read_text()
        words, modules = names_of(text)
        for name in WORD.findall(clauses(text, given)):
            first, _, behind = name.partition('.')
            if first in words:
                out.add(words[first])
            elif first in modules:
                out.add((*modules[first], behind))
    return out


def given_on(word):
    """Where a word is defined that a module only gives on by `pub use`."""
    crate, module, name = word
    path = TOP / 'crates' / crate / 'specs' / (module.replace('.', '/') + '.antt')
    if path.exists():
        for line in path.read_text().splitlines():
            if line.startswith('pub use') and name in names_of(line)[0]:
                return names_of(line)[0][name]
    return word


def told(known, order):
    """The definitions that docs/PROOFS.md names: of the crates that the section's heading or the paragraph names. Where the
    heading names none, the crates named so far count; and a word with a capital that none of these has is the highest one's."""
    by_name, out, headed, crates = {}, set(), [], []
    for word in known:
        by_name.setdefault(word[2], []).append(word)
    for part in re.split(r'\n(?=- |\n|#)', PROOFS.read_text()):
        named = re.findall(r'spg\w+', part)
        if part.lstrip().startswith('#'):
            headed, crates = named, named
            continue
        crates = headed + named if headed else crates + named
        for name in re.findall(r'`([\w\']+)`', part):
            found = by_name.get(name, [])
            near = [word for word in found if word[0] in crates]
            if near or not headed and name[:1].isupper():
                out.update(near or sorted(found, key=lambda word: order.index(word[0]))[-1:])
    return out


def leaning(known):
    """The definition right before each whose comment begins with `the same`, which it leans on."""
    before, out = {}, None
    for word in known:
        before[word] = out if out and out[:2] == word[:2] else None
        out = word
    return {word: before[word] for word in known if known[word].startswith('the same') and before[word]}


def sentences():
    """The sentences of docs/definitions.txt, by the definition that each tells."""
    out = {}
    for line in SENTENCES.read_text().splitlines():
        if line.strip() and not line.startswith('#'):
            name, _, said = line.partition(': ')
            out[tuple(name.split())] = said.strip()
    return out


def gathered():
    """The words of the page in order, each with its comment, or with none; and idle lines of the list."""
    known, cites, order = {}, set(), []
    for _, crates in layers():
        for crate in crates:
            order.append(crate)
            known.update(definitions(crate))
            cites |= cited(crate)
    cites = {given_on(word) for word in cites} | told(known, order)
    leans, more = leaning(known), cites
    while more:
        more = {leans[word] for word in more if word in leans} - cites
        cites |= more
    written = sentences()
    words = {word: written.get(word) or known[word] for word in known if word in cites}
    idle = [word for word in written if word not in words or written[word] == known[word]]
    return words, idle


def sentence(text):
    """A comment as a sentence."""
    if not re.match(r'\w\b', text) or text.startswith('a '):
        text = text[:1].upper() + text[1:]
    return text if text.endswith(('.', ':')) else text + '.'


def page(words):
    """The text of the page."""
    out = [HEAD]
    for says, crates in layers():
        here = [word for word in words if word[0] in crates]
        if not here:
            continue
        out.append('## ' + re.split('[:,;.]', says)[0] + '\n')
        last = None
        for word in here:
            crate, module, name = word
            if word[:2] != last:
                out.append(('' if last is None else '\n') + f'`{crate}/{module}`\n')
                last = word[:2]
            out.append(textwrap.fill(f'- `{name}`: {sentence(words[word])}', WIDTH, subsequent_indent='  ',
                                     break_long_words=False, break_on_hyphens=False))
        out.append('')
    return '\n'.join(out).rstrip('\n') + '\n'


def whole(name):
    """The comments of the definitions of a name, each with the file in which it stands."""
    known = {word: said for _, crates in layers() for crate in crates for word, said in definitions(crate).items()}
    known.update({word: said for word, said in sentences().items() if word in known})
    return [f'crates/{crate}/specs/{module.replace(".", "/")}.antt: {said or "no comment"}'
            for (crate, module, word), said in known.items() if word == name]


def main(args):
    if args and not args[0].startswith('--'):
        for name in args:
            print('\n'.join(whole(name)) or f'{name}: no definition')
        return 0
    words, idle = gathered()
    bare = [word for word in words if not words[word]]
    text = page(words)
    if args == ['--write']:
        PAGE.write_text(text)
    elif args != ['--check']:
        print(text, end='')
    for word in bare:
        print(f'{word[0]} {word[1]}: no comment above `{word[2]}`, and docs/definitions.txt has none', file=sys.stderr)
    if args != ['--check']:
        return 0
    for word in idle:
        print('docs/definitions.txt has a needless line:', *word, file=sys.stderr)
    if PAGE.read_text() != text:
        print('docs/DEFINITIONS.md is not what tools/definitions.py prints; --write writes it', file=sys.stderr)
        return 1
    return 1 if bare or idle else 0


if __name__ == '__main__':
    sys.exit(main(sys.argv[1:]))
