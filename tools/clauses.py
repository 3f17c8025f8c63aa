#!/usr/bin/env python3
"""The clauses of all public functions, and how they differ between two trees.

    tools/clauses.py TREE        lists each public function, and its clauses
    tools/clauses.py OLD NEW     prints what differs, with the old names mapped to new ones by tools/renamed.tsv

A tree is a folder or a revision of git. Public functions are the `pub fn` of modules and of impls of public types, and
the methods of public traits and of their impls. Those that lib.rt doesn't export count too, and are marked (inside).
With the clauses of a function stands its signature; the ghost items of a public type, trait or impl, which are what
contracts see of its values, count as clauses of that. Layout, comments, bodies, tests and imports don't count, nor what
the words that a clause cites mean: that stands in specs/.

renamed.tsv has lines of three words: `crate OLD NEW`; `path OLD NEW`, for a function, or a module or type and all that
is in it, where the longest that fits decides, before the crate; `word OLD NEW`, in all clauses, signatures and paths.
Where OLD has no crate of an old name, nothing is mapped.
"""
import io
import os
import re
import subprocess
import sys
import tarfile

HERE = os.path.dirname(os.path.abspath(__file__))
TOKEN = re.compile(r'''
    (?P<space> \s+ | //[^\n]* | /\*.*?\*/ )
  | (?P<raw> b?r(?P<hashes>\#*)".*?"(?P=hashes) )
  | (?P<text> b?"(?:\\.|[^"\\])*" )
  | (?P<char> b?'(?:\\(?:x..|u\{[^}]*\}|.)|[^\\'\n])' )
  | (?P<word> '?\w[\w']* )
  | (?P<mark> -> | => | :: | . )''', re.S | re.X)
TYPE = re.compile(r'^\s*(pub )?(?:pub\([^)]*\) )?(?:struct|enum|trait|type) (\w+)', re.M)
OPEN, CLOSE = {'(', '[', '{'}, {')', ']', '}'}


class Reader:
    """Reads the items of a file into `found`, which gets a list of clauses for each path."""

    def __init__(self, text, hidden, found):
        self.tokens = [m for m in TOKEN.finditer(text) if m.lastgroup != 'space']
        self.hidden, self.found, self.at = hidden, found, 0

    def peek(self, ahead=0):
        at = self.at + ahead
        return self.tokens[at].group() if at < len(self.tokens) else ''

    def skip(self, *ends):
        """Goes to the first of these, or to a closing bracket, that stands outside of brackets."""
        while self.peek() and self.peek() not in CLOSE and self.peek() not in ends:
            if self.peek() in OPEN:
                self.block()
            else:
                self.at += 1

    def block(self):
        """Goes behind the bracket that closes the one that stands here."""
        self.at += 1
        self.skip()
        if not self.peek():
            raise ValueError('a bracket stays open')
        self.at += 1

    def generics(self):
        """Goes behind the type parameters that may stand here."""
        depth = 0
        while depth or self.peek() == '<':
            depth += (self.peek() == '<') - (self.peek() == '>')
            self.at += 1

    def since(self, start):
        """What stands since that token, as one line that is the same for every layout."""
        pieces = []
        for before, token in zip([None, *self.tokens[start:]], self.tokens[start:self.at]):
            pieces.append(' ' if before and before.end() < token.start() else '')
            pieces.append(token.group())
        return re.sub(r',? ?([)\]])', r'\1', re.sub(r'([(\[]) ', r'\1', ''.join(pieces)))

    def add(self, path, clause):
        self.found.setdefault(path, []).append(clause)

    def items(self, path, inner=False, public=False):
        """Reads items up to a closing brace. `inner`: they are those of a public type, trait or impl, whose ghost
        items count; `public`: those without `pub` are public, as in a trait."""
        while self.peek() and self.peek() != '}':
            shown, tested = public, False
            while self.peek() == '#':
                start = self.at
                self.at += 1 + (self.peek(1) == '!')
                self.block()
                tested |= self.since(start) in ('#[test]', '#[cfg(test)]')
            if self.peek() == 'pub':
                self.at += 1
                shown = self.peek() != '('
                if not shown:
                    self.block()
            while self.peek() in ('const', 'unsafe') and self.peek(1) in ('fn', 'unsafe', 'trait', 'impl'):
                self.at += 1
            self.item(path, inner, shown and not tested)

    def item(self, path, inner, shown):
        kind, name, start = self.peek(), self.peek(1), self.at
        if kind == 'fn':
            self.function(f'{path}::{name}', shown)
        elif kind in ('mod', 'trait') or kind in ('struct', 'enum') and shown:
            self.skip('{', ';')
            if self.peek() == '{':
                self.at += 1
                if kind in ('mod', 'trait'):
                    self.items(f'{path}::{name}', shown and kind == 'trait', shown and kind == 'trait')
                else:
                    self.fields(f'{path}::{name}')
            self.at += 1
        elif kind == 'impl':
            self.at += 1
            self.generics()
            start = self.at
            self.skip('{')
            head = self.since(start).split(' where ')[0]
            of_trait, subject = ' for ' in head, head.split(' for ')[-1].split('<')[0]
            self.at += 1
            if subject in self.hidden or of_trait and head.split(' for ')[0].split('<')[0] in self.hidden:
                self.skip_items()
            else:
                self.items(f'{path}::{head if of_trait else subject}', True, of_trait)
            self.at += 1
        else:
            self.skip(';')
            if kind == 'ghost' and name != 'use' and inner:
                self.add(path, self.since(start))
            self.at += 1

    def skip_items(self):
        while self.peek() != '}':
            self.skip()

    def fields(self, path):
        """The ghost fields of a type."""
        while self.peek() != '}':
            start = self.at
            self.skip(',')
            if 'ghost' in [token.group() for token in self.tokens[start:self.at]]:
                self.add(path, self.since(start))
            self.at += self.peek() == ','

    def function(self, path, shown):
        start = self.at
        self.skip('requires', 'ensures', '{', ';')
        clauses = [self.since(start)]
        while self.peek() in ('requires', 'ensures'):
            start = self.at
            self.skip('{')
            self.block()
            clauses.append(self.since(start))
        if self.peek() == '{':
            self.block()
        else:
            self.at += 1
        if shown:
            self.found[path] = clauses


def files_of(tree):
    """The source files of a folder or a revision: {name: text}."""
    found = {}
    if os.path.isdir(tree):
        for folder, _, names in os.walk(os.path.join(tree, 'crates')):
            for name in names:
                path = os.path.join(folder, name)
                if re.search(r'/src/[^/]+\.rt$', path):
                    found[os.path.relpath(path, tree)] = open(path, encoding='utf-8').read()
        return found
    packed = subprocess.run(['git', '-C', os.path.dirname(HERE), 'archive', tree, 'crates'], stdout=subprocess.PIPE,
                            check=True).stdout
    with tarfile.open(fileobj=io.BytesIO(packed)) as archive:
        for member in archive:
            if re.search(r'^crates/\w+/src/[^/]+\.rt$', member.name):
                found[member.name] = archive.extractfile(member).read().decode('utf-8')
    return found


def contracts_of(tree):
    """The clauses of each public function of a tree, and which paths lib.rt exports."""
    files, found, exported = files_of(tree), {}, set()
    crates = {}
    for name, text in sorted(files.items()):
        crates.setdefault(name.split('/')[1], {})[os.path.basename(name)[:-3]] = text
    for crate, modules in crates.items():
        types = [kind for text in modules.values() for kind in TYPE.findall(text)]
        hidden = {name for _, name in types} - {name for public, name in types if public}
        root = modules.get('lib', modules.get('main', ''))
        shown = set(re.findall(r'^pub mod (\w+);', root, re.M))
        named = set(re.findall(r'\w+', ' '.join(re.findall(r'^pub use ([^;]*);', root, re.M))))
        for module, text in modules.items():
            if re.search(rf'#\[cfg\(test\)\]\s*mod {module};', root):
                continue
            path = crate if module in ('lib', 'main') else f'{crate}::{module}'
            here = {}
            reader = Reader(text, hidden | {name for public, name in TYPE.findall(text) if not public}, here)
            try:
                reader.items(path)
                if reader.peek():
                    raise ValueError('a bracket closes that was not opened')
            except ValueError as fault:
                sys.exit(f'{tree}: crates/{crate}/src/{module}.rt: {fault}')
            found.update(here)
            for item in here:
                words = re.findall(r'\w+', item[len(path):])
                if path == crate or module in shown or named & set(words):
                    exported.add(item)
    return found, exported


def renaming(paths_before):
    """What maps an old path, and what maps an old text: the same again where no old crate stands."""
    crates, paths, words = {}, {}, {}
    with open(os.path.join(HERE, 'renamed.tsv'), encoding='utf-8') as lines:
        for line in lines:
            if line.strip() and not line.startswith('#'):
                kind, old, new = line.split()
                {'crate': crates, 'path': paths, 'word': words}[kind][old] = new
    if not crates.keys() & {path.split('::')[0] for path in paths_before}:
        crates, paths, words = {}, {}, {}

    def of_text(text):
        text = re.sub(r'\b\w+(?=::)|(?<=\bRattle\.)\w+', lambda m: crates.get(m.group(), m.group()), text)
        return re.sub(r'\w+', lambda m: words.get(m.group(), m.group()), text)

    def of_path(path):
        head, parts = path, []
        while head not in paths and '::' in head:
            head, part = head.rsplit('::', 1)
            parts.insert(0, part)
        head = paths.get(head) or crates.get(head, head)
        return '::'.join([head, *map(of_text, parts)])

    return of_path, of_text


def label(clause):
    """What a clause is told apart by: its kind and its name."""
    return re.match(r'(fn|(?:requires|ensures) ?\*? ?(?:\w+)?|(?:pub )?ghost \w+|)', clause).group().strip()


def differences(old, new):
    """The lines that tell how two lists of clauses differ."""
    gone, more = [c for c in old if c not in new], [c for c in new if c not in old]
    for clause in list(gone):
        same = [c for c in more if label(c) == label(clause)]
        if same:
            gone.remove(clause)
            more.remove(same[0])
            word = 'signature changed' if clause.startswith('fn ') else 'clause changed'
            yield f'  {word}\n    - {clause}\n    + {same[0]}'
    yield from (f'  clause gone\n    - {clause}' for clause in gone)
    yield from (f'  clause new\n    + {clause}' for clause in more)


def main(arguments):
    if len(arguments) not in (1, 2):
        sys.exit(__doc__)
    new, exported = contracts_of(arguments[-1])
    count, total = 0, sum(not clause.startswith('fn ') for clauses in new.values() for clause in clauses)

    def mark(path, among):
        return path if path in among else path + ' (inside)'

    if len(arguments) == 1:
        for path in sorted(new):
            print(mark(path, exported))
            for clause in new[path]:
                print('  ' + clause)
    else:
        before, shown = contracts_of(arguments[0])
        of_path, of_text = renaming(before)
        old = {}
        for path, clauses in before.items():
            target = of_path(path)
            if target in old:
                sys.exit(f'renamed.tsv maps two paths to {target}')
            name = 'fn ' + target.split('::')[-1]
            old[target] = path, [re.sub(r'^fn \w+', name, of_text(clause)) for clause in clauses]
        for path in sorted({*old, *new}):
            if path not in new:
                count += 1
                print(f'function gone: {mark(old[path][0], shown)}')
                for clause in old[path][1]:
                    print(f'    - {clause}')
            elif path not in old:
                count += 1
                print(f'function new: {mark(path, exported)}')
                for clause in new[path]:
                    print(f'    + {clause}')
            else:
                lines = list(differences(old[path][1], new[path]))
                if old[path][0] in shown and path not in exported:
                    lines.append('  is exported no more')
                if lines:
                    count += len(lines)
                    print(mark(path, exported))
                    print('\n'.join(lines))
    functions = sum(clauses[0].startswith('fn ') for clauses in new.values())
    print(f'{functions} functions, {total} clauses' + (f', {count} differences' if len(arguments) == 2 else ''))


if __name__ == '__main__':
    main(sys.argv[1:])
