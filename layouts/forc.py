"""What stands in C: the header's structs and declarations, and the names that the command shows."""
from rows import KINDS

SECTIONS = ('The header of a datagram: kind 0.', 'Samples: kind 1, the fields before their records.', 'Flow records: kind 2.', 'Counter records: kind 3.')
SPANS = {'STRING': 'a string: ', 'BYTES': 'bytes: ', 'LIST': 'a list: ', 'SEGMENTS': 'segments: '}
DESCRIPTOR = 'const uint8_t *data, size_t length, const uint32_t descriptor[LATCHPLUME_DESCRIPTOR_WORDS]'


def declaration(layout):
    """A layout's struct, with a comment for each field, and its call."""
    members = ['    %s;' % (field.shape.c % field.name) for field in layout.fields]
    broad = max(len(member) for member in members)
    text = 'typedef struct latchplume_%s {\n    latchplume_outcome outcome;\n' % layout.name
    for field, member in zip(layout.fields, members):
        text += '%-*s /* %s%s */\n' % (broad, member, SPANS.get(field.shape.tool, ''), field.meaning)
    calls = ['latchplume_%s latchplume_read_%s(' % (layout.name, layout.name + end) for end in ('', '_base')[:1 + layout.modes]]
    return text + '} latchplume_%s;\n\n' % layout.name + ''.join(call + '\n    ' * (len(call + DESCRIPTOR) > 132) + DESCRIPTOR + ');\n' for call in calls)


def header(layouts):
    text = ''
    for kind, section in enumerate(SECTIONS):
        texts = [('/* Format %d: %s. */\n' % (one.format, one.what) if kind else '') + declaration(one) for one in layouts if one.kind == kind]
        text += '/* %s */\n%s%s\n' % (section, '\n' if kind else '', '\n'.join(texts))
    return text


def table(layouts):
    """The command's table: the calls, the fields of each layout, and the layouts."""
    text = ''.join('READ(%s)\n' % one.name + 'READ_BASE(%s)\n' % one.name * one.modes for one in layouts)
    for one in layouts:
        text += '\nstatic const struct field %s[] = {\n' % one.name.upper()
        for field in one.fields:
            shape = 'IPV4' if field.seen == 'IPv4' else field.shape.tool
            said, more = ('SAID_LONG' if shape == 'LONG' else 'SAID', ', ' + field.say) if field.say else ('FIELD', '')
            text += '    %s(%s, %s, %s%s),\n' % (said, one.name, field.name, shape, more)
        text += '};\n'
    kinds = ['LATCHPLUME_' + kind.upper().replace(' ', '_') for kind in KINDS]
    rows = ''.join('    LAYOUT%s(%s, %d, %s, %s),\n' % ('_BASE' * one.modes, kinds[one.kind], one.format, one.name, one.name.upper()) for one in layouts)
    return text + '\nconst struct layout LAYOUTS[] = {\n%s};\n' % rows
