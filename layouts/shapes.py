"""What a field may be: its shape on the wire, and how each of the made texts speaks of it."""
from collections import namedtuple

# rust                 its type in a reader's struct
# words                the names of its words, where it is made of words: '' of a number, '0' of a type around one
# call, law            how a reader reads it alone, and by which law the cursor is inside behind it
# several, zeros       whether it is several items, of which there are not always as many; and where its sixteen bytes are, if it has so many, in what is said of its default
# passed               its name in the framing's table, where it is no word and has the same in both modes
# shown, back          its value in terms of the reading, and how it is got back from that
# c, tool, seen        its type in C, with %s for the name; its shape in tools/layouts.h; how it is shown, where there is no choice
# size, about          its bytes on the wire, 0 where they are not always as many; and what docs/FORMATS.md calls it
Shape = namedtuple('Shape', 'rust words call law several zeros passed shown back c tool seen size about')


def number(rust, words, call, passed, c, tool, seen, about):
    law = 'after_field _' if call.startswith('field') else 'after_item _'
    return Shape(rust, words, call, law, False, None, passed, 'number r.%s', 'word_at', c + ' %s', tool, seen, 8 if rust == 'u64' else 4 * max(1, len(words)), about)


def words(rust, names, c, tool, seen, about):
    return number(rust, names, 'c.read_u32(s)', None, c, tool, seen, about)


def block(count, call, law, passed, tool, seen, size, about):
    return Shape('[u8; %d]' % count, (), call, law, False, '' if count == 16 else None, passed, 'octets r.%s', 'bytes_at', 'uint8_t %%s[%d]' % count, tool, seen, size, about)


def span(call, law, passed, tool, seen, about):
    return Shape('Span', (), call, law, law == 'after_field _', None, passed, 'part (span r.%s)', 'range_at', 'latchplume_span %s', tool, seen, 0, about)


SHAPES = {
    'word': words('u32', ('',), 'uint32_t', 'NUMBER', None, 'word'),
    'DataSource': words('DataSource', ('0',), 'latchplume_data_source', 'SOURCE', 'source', 'word: 8 bits type, 24 bits index'),
    'Interface': words('Interface', ('0',), 'latchplume_interface', 'INTERFACE', 'interface', 'word: 2 bits format, 30 bits value'),
    'DataSourceExpanded': words('DataSourceExpanded', ('source_id_type', 'source_id_index'), 'latchplume_data_source_expanded', 'SOURCE_EXPANDED',
                                'source', 'two words: type, index'),
    'InterfaceExpanded': words('InterfaceExpanded', ('format', 'value'), 'latchplume_interface_expanded', 'INTERFACE_EXPANDED', 'interface',
                               'two words: format, value'),
    'version': number('u32', (), '', '', 'uint32_t', 'NUMBER', None, 'word, which is 5'),
    'protocol': number('u32', (), 'field::protocol(c, s)', 'Protocol', 'uint32_t', 'NUMBER', None, 'word, one of 1 to 17'),
    'u64': number('u64', (), 'c.read_u64(s)', 'Long', 'uint64_t', 'LONG', None, 'u64'),
    'ethernet': block(6, 'field::six(c, s, mode)', 'after_field _', None, 'MAC', 'MAC', 8, '6 bytes, and 2 that are read over; in the base mode 6'),
    'mac': block(6, 'field::six(c, s, Mode::Memo)', 'after_field _', 'Mac', 'MAC', 'MAC', 8, '6 bytes, and 2 that are read over'),
    'sixteen': block(16, 'c.read_fixed::<16>(s)', 'after_block sixteen', 'Sixteen', 'IPV6', 'IPv6', 16, '16 bytes'),
    'address': Shape('Address', (), 'c.parse_address(s)', 'after_field _', True, '.1', 'Address', 'an_address r.%s', 'address_at', 'latchplume_address %s', 'ADDRESS', 'address', 0,
                     'address: its type, and no byte, 4 or 16'),
    'string': span('c.read_string(s)', 'after_item _', 'Text', 'STRING', 'text', 'string: its length, its bytes, their pad'),
    'opaque': span('c.read_opaque(s)', 'after_item _', 'Opaque', 'BYTES', 'bytes', 'opaque: its length, its bytes, their pad'),
    'list': span('lists::list(c, s)', 'after_field _', 'List', 'LIST', None, 'list: how many words, and those'),
    'segments': span('lists::segments(c, s)', 'after_field _', 'Segments', 'SEGMENTS', 'path', 'segments: how many, and those'),
}
