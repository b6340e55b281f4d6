"""docs/FORMATS.md: a section for each layout, with its fields and where they stand, for people."""
from rows import DOCUMENTS, KINDS


def section(one):
    about = '%s%s. From %s%s.' % (one.what[0].upper(), one.what[1:], DOCUMENTS[one.document], one.parted)
    lines = ['', '## %s %d: %s' % (KINDS[one.kind].capitalize(), one.format, one.name), '', about, '', '| offset | field | shape | shown as | what it is |',
             '|---|---|---|---|---|']
    lines += ['| %s | `%s` | %s | %s | %s |' % (at, f.name, f.shape.about, f.seen, f.meaning) for at, f in zip(one.offsets(), one.fields)]
    return '\n'.join(lines + (['', 'Behind these fields stand as many %s as the last of them says.' % one.holds] if one.holds else [])) + '\n'
