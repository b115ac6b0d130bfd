#!/usr/bin/env python3
"""Finds every definition file that the headline rests on, and holds `docs/trust.md` against that list.

    tests/pages/trust.py [--list]

From the file of the headline it follows each import of a definition file of this repository; of the kit it names the
libraries whose definitions are imported. Of a file of proofs it follows each definition that is named, with what that
definition itself names, and lists it with its file's name. Lemmas are passed over, since they define nothing, and so
are the program's own types (`declared.`), which are alternatives with their fields, as the code declares them. Silent
and status 0 where the page lists exactly these; else a line for each that is missing there or that the headline doesn't
rest on, and status 1.
`--list` prints the lines of the page's list, crate by crate, in place of comparing.
"""

import os
import re
import sys

HEADLINE = 'crates/js_top/specs/Correct.antt'
PAGE = 'docs/trust.md'
ROOT = os.path.dirname(os.path.dirname(os.path.dirname(os.path.abspath(__file__))))
USE = re.compile(r'^\s*(?:pub )?use Rattle\.(\w+)\.(specs|proofs)\.([\w.]+?)(?:\.\{(.*)\}| as (\S+)|)\s*$', re.M)
PASSED_ON = re.compile(r'^pub use Rattle\.(\w+)\.(specs|proofs)\.([\w.]+)$', re.M)
DEFINED = r'^ *(?:(?:abbrev|unfoldable)(?: pub)?|(?:pub )?(?:data|record)) %s(?![^\s(:])'
NAME = re.compile(r'[^\s(){},;.]+')
KIT = 'of the kit'
ENTRY = re.compile(r'^- `?(\w+|of the kit)`?: (.*)$', re.M)


def text_of(path):
    with open(os.path.join(ROOT, path), encoding='utf-8') as file:
        return file.read()


def passed_on(crate, folder):
    """The modules of other crates that a crate passes on under its own name, with where they are."""
    path = 'crates/%s/%s/Lib.antt' % (crate, folder)
    text = text_of(path) if os.path.exists(os.path.join(ROOT, path)) else ''
    return {module: (other, part) for other, part, module in PASSED_ON.findall(text)}


def file_of(crate, folder, module):
    """The file of a module, or of the module that it is a part of, in this crate or in one that it passes on."""
    parts = module.split('.')
    for length in range(len(parts), 0, -1):
        name = '.'.join(parts[:length])
        found = 'crates/%s/%s/%s.antt' % (crate, folder, '/'.join(parts[:length]))
        if os.path.exists(os.path.join(ROOT, found)):
            return found
        if name in passed_on(crate, folder):
            return file_of(*passed_on(crate, folder)[name], name)
    return None


def definition(path, name):
    """The text of a definition, up to the next blank line; none where the file has no definition of that name."""
    text = text_of(path)
    found = re.search(DEFINED % re.escape(name), text, re.M)
    return found and text[found.start():].split('\n\n')[0]


def imports(path, text, is_whole):
    """What a text in a file names by the file's imports: definition files of this repository, definitions in files of
    proofs as pairs of a file and a name, and names of the kit's libraries. A whole file names all definition files that
    it imports."""
    named = set(NAME.findall(USE.sub('', text).replace('◌', '')))
    for crate, folder, module, names, alias in USE.findall(text_of(path)):
        used = named.intersection(re.split(r', *', names.replace('◌', '')) if names else [alias])
        is_own = os.path.isdir(os.path.join(ROOT, 'crates', crate))
        found = file_of(crate, folder, module) if is_own else crate
        if module.startswith('declared.'):
            continue
        if found is None:
            raise SystemExit('%s: the import of %s of %s leads to no file' % (path, module, crate))
        if folder == 'specs' and (is_whole or used):
            yield found
        elif folder == 'proofs' and is_own:
            yield from ((found, name) for name in (used if names else named if used else ()) if definition(found, name))


def more(item):
    """What a definition file, or a definition in a file of proofs, rests on; nothing is followed into the kit."""
    if isinstance(item, str):
        return imports(item, text_of(item), True) if '/' in item else []
    path, name = item
    text = definition(path, name)
    own = [(path, other) for other in NAME.findall(text) if other not in (name, 'pub') and definition(path, other)]
    return own + list(imports(path, text, False))


def rests_on(path):
    """All that is reached by imports, with the file itself."""
    seen, left = {path}, [path]
    while left:
        for found in more(left.pop()):
            if found not in seen:
                seen.add(found)
                left.append(found)
    return seen


def lines(found):
    """The list as the page has it: a line for each crate, in the order of names."""
    crates, kit = {}, []
    for item in found:
        path, name = (item, None) if isinstance(item, str) else item
        if '/' not in path:
            kit.append(path)
            continue
        _, crate, _, file = path.split('/', 3)
        file = file[:-len('.antt')]
        crates.setdefault(crate, []).append(file if name is None else '%s.%s' % (file, name))
    told = [('`%s`' % crate, crates[crate]) for crate in sorted(crates)] + [(KIT, kit)]
    return ['- %s: %s' % (crate, ', '.join('`%s`' % name for name in sorted(names))) for crate, names in told]


def main():
    wanted = lines(rests_on(HEADLINE))
    if sys.argv[1:] == ['--list']:
        print('\n'.join(wanted))
        return 0
    with open(os.path.join(ROOT, PAGE), encoding='utf-8') as file:
        page = file.read()
    stated = {crate: set(re.findall(r'`([^`]+)`', names)) for crate, names in ENTRY.findall(page)}
    found = {crate: set(re.findall(r'`([^`]+)`', names)) for crate, names in ENTRY.findall('\n'.join(wanted))}
    status = 0
    for crate in sorted(set(stated) | set(found)):
        for name in sorted(found.get(crate, set()) - stated.get(crate, set())):
            print('%s: the headline rests on `%s` of `%s`; add it (tests/pages/trust.py --list)' % (PAGE, name, crate))
            status = 1
        for name in sorted(stated.get(crate, set()) - found.get(crate, set())):
            print('%s: the headline doesn\'t rest on `%s` of `%s`; take it out' % (PAGE, name, crate))
            status = 1
    return status


if __name__ == '__main__':
    sys.exit(main())
