"""The files of the crates that have structs: each record by the names of its fields, and that it shows what `reading` has."""
from cases import LISTED, counter_bodies, ended_run, flow_bodies, header_bodies, named, sample_bodies, whole_datagrams
from structures import START, Part, antt_list, number


def antt_name(field):
    return '«%s»' % field if field == 'data' else field


def grouped(pairs):
    """`a.b` and `a.c` beside each other are the fields of a record `a`."""
    out = []
    for name, text in pairs:
        outer, _, inner = name.partition('.')
        if inner and out and out[-1][0] == outer:
            out[-1][1].append((inner, text))
        else:
            out.append((outer, [(inner, text)] if inner else text))
    return out


def literal(pairs):
    said = ('%s = %s' % (antt_name(f), literal(v) if isinstance(v, list) else v) for f, v in grouped(pairs))
    return 'record { %s }' % '; '.join(said)


def reading(end, steps, pairs):
    """What a field reading answers: how it ended, and the record."""
    return 'record { outcome = record { code = 0; at = %d; steps = %d }; fields = %s }' % (end, steps, literal(pairs))


def struct_of(body):
    """What a field reading of this example answers."""
    pairs = []
    for (kind, field), value in zip(body.fields, body.values):
        pairs.append((field, 'record { 0 = %s }' % value.field() if kind in ('data_source', 'interface') else value.field()))
    return reading(START + len(body.data), len(body.items), pairs)


def camel(name):
    return ''.join(part.capitalize() for part in name.split('_'))


class Struct:
    """A record of a crate's struct: its name here, its type and the module of that, what shows it, what it is of, and what of the type it is."""

    def __init__(self, name, kind, module, result, about, text, of=''):
        self.name, self.kind, self.module, self.result, self.about, self.text, self.of = name, kind, module, result, about, text, of


def read_struct(name, kind, module, shown, about, text):
    """One that a field reading answers."""
    return Struct(name, kind, module, 'of_fields (answer_of %s.outcome (%s %s.fields))' % (name, shown, name), about, text, 'Reading ')


def of_body(prefix, body):
    return read_struct('%s_%d' % (prefix, body.format), camel(body.name), body.module, body.name, named(body), struct_of(body))


def crate_text(crate, about, structs, tables, uses, more='', unfolded=''):
    """A crate's file: the records one by one, and that they show what `reading` has for these tables of examples."""
    text = '-- Made by tests/examples/make, from the memo\'s structures: %s by the names of their fields, as the\n' % about
    text += '-- examples of `reading` have them. Assumes nothing.\n'
    text += 'use Rattle.std.specs.Prelude.{◌≡◌, refl, List, [], ◌∷◌%s, map}\n' % (', ◌++◌' if len(tables) > 1 else '')
    results = [r for r in ('of_fields', 'of_input', 'of_word') if any(r in s.result for s in structs)]
    text += 'use Rattle.reading.specs.Examples.{Result, %s, Example, %s}\n' % (', '.join(results), ', '.join(tables)) + uses
    for kind, module in dict.fromkeys((s.kind, s.module) for s in structs):
        text += 'use Rattle.%s.specs.declared.%s.%s.{%s}\n' % (crate, module, kind, kind)
    for s in structs:
        text += '\n-- %s\n%s : %s%s\n%s = %s\n' % (s.about, s.name, s.of, s.kind, s.name, s.text)
    text += '\n-- what they are in the terms of the reading\npub shown : List Result\nunfolding %s\nshown =\n' % ' '.join(s.name for s in structs)
    text += '\n'.join('    %s%s' % ('∷ ' if i else '', s.result) for i, s in enumerate(structs)) + '\n    ∷ []\n'
    text += '\npub the_names_hold : shown ≡ map (λ (e : Example). e.result) %s\nunfolding shown %s\nthe_names_hold = refl\n' % (
        '(%s)' % ' ++ '.join(tables) if len(tables) > 1 else tables[0], ' '.join(tables) + unfolded)
    return text + more


def shown_uses(crate, names):
    return 'use Rattle.xdr.specs.Shown.{answer_of}\nuse Rattle.layout.specs.declared.record.Reading.{Reading}\nuse Rattle.%s.specs.Shown.{%s}\n' % (crate, ', '.join(names))


DESCRIPTOR = '''-- Made by tests/examples/make: a descriptor by the names of its fields, and its words in the store. Assumes nothing.
use Rattle.std.specs.Prelude.{◌≡◌, refl, [], ◌∷◌}
use Rattle.reading.specs.Answer.{row_of}
use Rattle.store.specs.Written.{range_of}
use Rattle.store.specs.declared.Descriptor.{Descriptor}

pub a_descriptor : Descriptor
a_descriptor = record { kind = 11; format = record { 0 = 12 }; start = 13; length = 14; parent = 15; depth = 16; first = 17 }

pub the_descriptor_holds : row_of a_descriptor.parent (range_of a_descriptor) ≡ 11 ∷ 12 ∷ 13 ∷ 14 ∷ 15 ∷ 16 ∷ 17 ∷ []
unfolding a_descriptor
the_descriptor_holds = refl
'''

ASKED = '''
-- a descriptor's words, as they are handed in: kind, format, start and length are what is asked
pub the_descriptor_holds : (mode : Mode) (s : List ℕ) → read_at mode 1 2 s (11 ∷ 12 ∷ 13 ∷ 14 ∷ 15 ∷ 16 ∷ 17 ∷ []) ≡ read mode 1 2 s 11 12 13 14
the_descriptor_holds mode s = refl
'''


def store_text():
    return DESCRIPTOR


def layout_text():
    segment = read_struct('segment', 'Segment', 'lists', 'a_segment', 'a segment of an AS path',
                          reading(START + 16, 4, [('kind', '1'), ('path', Part((START + 8, 2)).field())]))
    return crate_text('layout', 'the segments of an AS path', [segment], ['segments'], shown_uses('layout', ['a_segment']))


def flow_layouts_text():
    bodies = flow_bodies()
    return crate_text('flow_layouts', 'the flow records', [of_body('flow', b) for b in bodies], ['flow_records'],
                      shown_uses('flow_layouts', [b.name for b in bodies]))


def counters_text():
    bodies = counter_bodies()
    return crate_text('counters', 'the counter records', [of_body('counter', b) for b in bodies], ['counter_records'],
                      shown_uses('counters', [b.name for b in bodies]))


def samples_text():
    bodies = sample_bodies()
    return crate_text('samples', 'the samples', [of_body('sample', b) for b in bodies], ['sample_fields'],
                      shown_uses('samples', [b.name for b in bodies]))


def datagram_text():
    structs = [read_struct('header_%d' % b.data[7], 'Header', 'header', 'header_fields', 'a header with an address of type %d' % b.data[7], struct_of(b))
               for b in header_bodies()]
    for d in whole_datagrams():
        name = 'decoded_%d' % d.head.data[7]
        pairs = [('answer', answer_of(d)), *((f, v.field()) for (_, f), v in zip(d.head.fields, d.head.values) if f != 'version')]
        structs.append(Struct(name, 'Decoded', 'decode', 'of_input (decoded %s %s)' % (name, d.words()),
                              'a datagram whose agent has an address of type %d' % d.head.data[7], literal(pairs)))
    for d, name, about in ((whole_datagrams()[0], 'ran_1', 'the first of these as a run'), (ended_run(), 'ran_2', 'a run that ends in the middle of a header')):
        structs.append(Struct(name, 'Answer', 'decode', 'of_input (ran %s %s)' % (name, d.words()), about, answer_of(d)))
    return crate_text('datagram', "a datagram's header and the answers to the calls", structs, ['headers', 'inputs'],
                      'use Rattle.reading.specs.Answer.{header_of, no_header}\n' + shown_uses('datagram', ['header_fields', 'decoded', 'ran']),
                      unfolded=' header_of no_header')


def fields_text():
    structs = [Struct('listed_%d' % i, 'Listed', 'lists', 'of_word (listed listed_%d)' % i, 'the word with index %d of a list of two' % i,
                      literal([('present', str(there).lower()), ('value', number(value))])) for i, there, value in LISTED]
    uses = '''use Rattle.reading.specs.Layout.{Mode}
use Rattle.reading.specs.Answer.{read}
use Rattle.fields.specs.Shown.{read_at, listed}
'''
    text = crate_text('fields', 'a word of a list, and what is asked of a descriptor,', structs, ['list_words'], uses, ASKED)
    return text.replace('{◌≡◌, refl, List', '{ℕ, ◌≡◌, refl, true, false, List')


def answer_of(d):
    return 'record { code = 0; at = %d; steps = %d; needed = %d }' % (d.at, d.steps, d.needed)
