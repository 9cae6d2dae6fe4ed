#!/usr/bin/env python3
"""The must-fail edits: wrong bodies that the prover must refuse.

The gate tries those in crates/NAME/must-fail/. Each crate with edits is proved once more there, so the gate keeps
those that tell most; the others stand in crates/NAME/more-edits/, in the same form, and are tried by hand.

    tools/edits.py --check       fails where an edit of either folder can no longer be applied
    tools/edits.py --try NAME..  tries all edits of these crates, with rt must-fail, in a copy of the repository
"""
import pathlib
import shutil
import subprocess
import sys
import tempfile

TOP = pathlib.Path(__file__).resolve().parent.parent
FOLDERS = ('must-fail', 'more-edits')


def fault(crate, edit):
    """Says why an edit can't be applied to its crate, or nothing."""
    path, old, texts = None, None, {}
    for line in edit.read_text().split('\n'):
        if line.startswith('file: '):
            path = line[len('file: '):].strip()
        elif line.startswith('old: '):
            old = line[len('old: '):]
        elif line.startswith('new:'):
            new = line[len('new:'):].removeprefix(' ')
            if path is None or old is None:
                return "a line 'new:' without 'file:' and 'old:' before it"
            if path not in texts:
                file = crate / path
                if not file.is_file():
                    return f'no file {path}'
                texts[path] = file.read_text()
            found = texts[path].count(old)
            if found != 1:
                return f'its old text stands {found} times in {path}'
            texts[path], old = texts[path].replace(old, new), None
    return None if texts else 'no pair of old and new text'


def check():
    edits = sorted(it for folder in FOLDERS for it in TOP.glob(f'crates/*/{folder}/*.edit'))
    bad = [(it, why) for it in edits if (why := fault(it.parent.parent, it))]
    for it, why in bad:
        print(f'{it.relative_to(TOP)}: {why}')
    print(f'edits: {len(edits)}, of which {len(bad)} cannot be applied')
    return 1 if bad else 0


def try_all(names):
    with tempfile.TemporaryDirectory(prefix='edits-') as room:
        copy = pathlib.Path(room) / 'repository'
        skip = shutil.ignore_patterns('.git', 'out')
        shutil.copytree(TOP, copy, ignore=skip)
        (copy / '.git').mkdir()
        for name in names:
            crate = copy / 'crates' / name
            for it in sorted(crate.glob('more-edits/*.edit')):
                (crate / 'must-fail').mkdir(exist_ok=True)
                it.rename(crate / 'must-fail' / it.name)
        return subprocess.run(['rt', 'must-fail', *names], cwd=copy).returncode


def main(words):
    if words == ['--check']:
        return check()
    if len(words) > 1 and words[0] == '--try':
        lacking = [it for it in words[1:] if not (TOP / 'crates' / it).is_dir()]
        if not lacking:
            return try_all(words[1:])
        print(f'no crate {lacking[0]}', file=sys.stderr)
        return 2
    print(__doc__, file=sys.stderr)
    return 2


if __name__ == '__main__':
    sys.exit(main(sys.argv[1:]))
