"""Reads layouts/table, and refuses what is wrong there."""
import re
from collections import namedtuple
from itertools import groupby

from shapes import SHAPES

KINDS, CRATES = ('datagram', 'sample', 'flow record', 'counter record'), ('datagram', 'samples', 'flow_layouts', 'counters')
DOCUMENTS = {'memo': 'sFlow Version 5', '802.11': 'sFlow 802.11 Structures', 'drops': 'sFlow Dropped Packet Notification Structures'}
HELD = ('samples', 'flow records', 'counter records', 'PDUs')
KEYWORDS = set('''alignas alignof auto bool break case catch char class const constexpr continue default delete do double else enum explicit export extern
    false float for friend goto if inline int long mutable namespace new nullptr operator private protected public register restrict return short signed
    sizeof static static_assert struct switch template this thread_local throw true try typedef typename typeof union unsigned using virtual void volatile
    while as crate dyn ensures fn ghost impl in let loop match mod move mut pub ref requires self super trait type unsafe use where'''.split())
Field = namedtuple('Field', 'shape name seen meaning say')
# what readers call their own locals, and what stands before the fields in C; and what they called them before
OWN = {'c', 's', 'at', 'mode', 'row', 'first', 'second', 'third', 'fourth', 'fields', 'outcome'}
OWN |= {'p', 'r', 'd', 'passed', 'words', 'word', 'long', 'block', 'bytes', 'mac', 'address', 'text', 'list', 'path'}


class Refused(Exception):
    """What is wrong with the table."""


def refuse(wrong, text, *values):
    if wrong:
        raise Refused(text % values)


class Layout:
    def __init__(self, kind, format, name):
        self.kind, self.format, self.name, self.fields, self.said = kind, format, name, [], {}
        self.crate, self.fixed = CRATES[kind], kind == 3
        self.type = ''.join(part.capitalize() for part in name.split('_'))

    def runs(self, by=()):
        """Its fields; together are those that are made of words and stand one behind another, and those that one reader reads."""
        for together, run in groupby(self.fields, lambda field: 'by' if field.name in by else bool(field.shape.words)):
            yield from [list(run)] if together else ([field] for field in run)

    def offsets(self):
        """Where each field begins: a number, or behind the last field before it whose size is not always the same."""
        base, at = '', 0
        for field in self.fields:
            yield '%s%d' % (base, at)
            base, at = (base, at + field.shape.size) if field.shape.size else ('`%s` + ' % field.name, 0)

    def finish(self):
        """What stands on the lines before its fields."""
        missing = [key for key in ('what', 'from', 'file') if key not in self.said]
        refuse(missing, '%s has no line `%s`', self.name, (missing + [''])[0])
        refuse(not self.fields, '%s has no fields', self.name)
        long = not self.fixed and [1 for run in self.runs() if sum(len(f.shape.words) for f in run) > 11]
        refuse(long, '%s has more than 11 words one behind another', self.name)
        odd = [f.name for f in self.fields if self.fixed and f.shape not in (SHAPES['word'], SHAPES['u64'])]
        refuse(odd, '%s: a counter record has words and u64s only, and %s is neither', self.name, ''.join(odd[:1]))
        self.what, self.holds, self.by = self.said['what'], self.said.get('holds'), self.said.get('by', '').split()
        apart = self.by and self.by[1:] not in [[field.name for field in run] for run in self.runs(self.by)]
        refuse(apart, '%s: the fields behind `by` do not stand one behind another', self.name)
        refuse(not self.fixed and len([*self.runs(self.by)]) > 4, '%s is read in more than 4 steps: let a reader of parts.rt read some fields, by a line `by`', self.name)
        self.size, self.modes = sum(field.shape.size for field in self.fields), any(field.shape == SHAPES['ethernet'] for field in self.fields)
        self.file, self.by_hand = self.said['file'].split('  ')[0], self.said['file'].endswith('  by hand')
        self.document, _, self.parted = self.said['from'].partition(',')
        refuse(self.document not in DOCUMENTS, '%s is from `%s`; the documents are %s', self.name, self.document, ', '.join(DOCUMENTS))
        refuse(self.holds not in (None, *HELD), '%s holds `%s`, which is none of %s', self.name, self.holds, ', '.join(HELD))


def check_name(name, what, taken):
    refuse(not re.fullmatch(r'[a-z][a-z0-9_]*', name), '`%s`, the name of %s, is not made of small letters, digits and _', name, what)
    refuse(name in KEYWORDS, '`%s`, the name of %s, is a keyword of C, C++ or Rattle', name, what)
    refuse(name in OWN, '`%s`, the name of %s, is one that readers use for themselves', name, what)
    refuse(name in taken, '`%s`, the name of %s, stands there twice', name, what)


def read_field(line, layout, known):
    shape, name, rest = (line.split(None, 2) + ['', ''])[:3]
    seen, _, meaning = (part.strip() for part in rest.partition('  '))
    refuse(shape not in SHAPES, '`%s` is no shape; the shapes are %s', shape, ', '.join(SHAPES))
    check_name(name, 'a field of ' + layout.name, [field.name for field in layout.fields])
    refuse(not meaning, '%s of %s: how it is shown, two blanks, and what it is are missing', name, layout.name)
    only, say = SHAPES[shape].seen, 'say_' + re.sub(r'\W', '_', seen.lower().replace('.', ''))
    plain, type = only or seen in ('number', 'IPv4'), 'uint64_t' if shape == 'u64' else 'uint32_t'
    refuse(only and seen != only, '%s of %s is shown as `%s`; of this shape it is `%s`', name, layout.name, seen, only)
    refuse(not plain and (say, type) not in known, '%s of %s is shown as `%s`; tools/names.h has no `%s(%s`', name, layout.name, seen, say, type)
    return Field(SHAPES[shape], name, seen, meaning, None if plain else say)


def read_head(line, layouts):
    match = re.fullmatch(r'(%s) (\d+) (\S+)' % '|'.join(KINDS), line)
    refuse(not match, '`%s` is no kind (%s) with a format and a name', line, ', '.join(KINDS))
    layout = Layout(KINDS.index(match[1]), int(match[2]), match[3])
    check_name(layout.name, 'a layout', [other.name for other in layouts])
    last = (layouts[-1].kind, layouts[-1].format) if layouts else (-1, 0)
    refuse((layout.kind, layout.format) <= last, '%s %d stands twice, or behind a greater one', match[1], layout.format)
    return layout


def read_line(line, files, layouts, known):
    """One line that is no comment: the head of a layout, or what stands below it."""
    key, rest = (line.split(None, 1) + [''])[:2]
    if not line.startswith(' '):
        if layouts:
            layouts[-1].finish()
        if line != 'files':
            layouts.append(read_head(line, layouts))
    elif not layouts:
        files[key] = rest
    elif key not in ('what', 'from', 'file', 'holds', 'by'):
        layouts[-1].fields.append(read_field(line, layouts[-1], known))
    else:
        refuse(key in layouts[-1].said, '%s has two lines `%s`', layouts[-1].name, key)
        refuse(key == 'file' and rest.partition('  ')[0] not in files, '`%s` is no file; the files are %s', rest, ', '.join(files))
        layouts[-1].said[key] = rest


def read(lines, known):
    """The files with what they are, and the layouts. `known` are the functions that say what a number means, each with its type."""
    files, layouts, number = {}, [], 0
    try:
        for number, line in enumerate(lines, 1):
            if line.strip() and not line.startswith('#'):
                read_line(line.rstrip(), files, layouts, known)
        refuse(not layouts, 'there is no layout')
        layouts[-1].finish()
    except Refused as wrong:
        raise Refused('layouts/table:%d: %s' % (number, wrong)) from None
    for file in files:
        kinds = {one.kind for one in layouts if one.file == file and not one.by_hand}
        refuse(kinds not in ({1}, {2}, {3}), 'layouts/table: the readers of the file `%s` are not all of samples, of flow records or of counter records', file)
    return files, layouts
