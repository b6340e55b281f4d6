"""What a C host gets: a call for each layout, and that its contract settles what it answers."""
from readers import MADE, WIDEST, antt, imports

CALL = '''
%(sees)spub fn latchplume_read_%(name)s(%(parameters)s) -> Reading<%(type)s>
    ensures { answer_of result.outcome (%(shown)s result.fields) ≡ read_at memo %(kind)d %(format)d s.now d.now }
{
    read(s, d, %(kind)d, %(format)d, Mode::Memo)
}
'''
# so that a proof sees which layout the datagram has
SEES = '#[tactic(auto, unfolding(reading::specs::Answer::layout_of))]\n'
BACK = '''
pub %(name)s_lossless : Lossless (λ (r : Reading %(type)s). answer_of r.outcome (%(shown)s r.fields))
%(name)s_lossless = got_back (λ (x : Fields). record { outcome = outcome_of x; fields = record { %(back)s } }) (λ r. refl)
'''
SETTLED = '''  pub read_%(name)s_settled : Settles (call.%(file)s.latchplume_read_%(name)s.Reads.Learnt κs (s, (w, tt))) \
(λ r. answer_of r.outcome (%(shown)s r.fields)) (read_at memo %(kind)d %(format)d s.now w.now)
  read_%(name)s_settled = settled %(name)s_lossless
'''


def said(layout):
    """What the texts say of a layout. The datagram's reader is by hand: it has names of its own, and a layout that stands in no table."""
    line = 'pub fn latchplume_read_%s(s: &[u8], d: &Words) -> Reading<%s>' % (layout.name, layout.type)
    parameters = 's: &[u8], d: &Words' if len(line) <= WIDEST else '\n    s: &[u8],\n    d: &Words,\n'
    module, shown, sees = ('header', 'header_fields', SEES) if layout.by_hand else (layout.file, layout.name, '')
    return dict(vars(layout), parameters=parameters, module=module, shown=shown, sees=sees)


def uses(layouts):
    """What shows these layouts, crate by crate."""
    for crate in sorted({one.crate for one in layouts}):
        yield 'use Rattle.%s.specs.Shown.{%s}' % (crate, ', '.join(said(one)['shown'] for one in layouts if one.crate == crate))


def source(file, about, layouts):
    names = ['fields::ask::read', 'fields::descriptor::Words', 'layout::field::Mode', 'layout::record::Reading']
    names += ['%(crate)s::%(module)s::%(type)s' % said(one) for one in layouts]
    lines = ['// ' + MADE, '// ' + about, '// Each layout has a function of its own, by whose name C asks for it.',
             'ghost use Rattle.std.specs.Prelude.{◌≡◌};', 'ghost use Rattle.reading.specs.Layout.{memo};',
             'ghost use Rattle.xdr.specs.Shown.{answer_of};', *('ghost %s;' % line for line in uses(layouts)),
             'ghost use Rattle.fields.specs.Shown.{read_at};', '', *imports(names)]
    return '\n'.join(lines) + '\n' + ''.join(CALL % said(one) for one in layouts)


def back(layout):
    """Each field, got back from the values that are shown."""
    at = 0
    for field in layout.fields:
        names = field.shape.words or ('',)
        got = ['%s x %d' % (field.shape.back, at + i) for i in range(len(names))]
        at += len(names)
        inner = '; '.join('%s = %s' % (antt(name), one) for name, one in zip(names, got))
        yield '%s = %s' % (antt(field.name), 'record { %s }' % inner if names[0] else got[0])


def lossless(layouts):
    lines = ['use Rattle.%(crate)s.specs.declared.%(module)s.%(type)s.{%(type)s}' % said(one) for one in layouts] + [*uses(layouts)]
    return '\n'.join(lines) + '\n' + ''.join(BACK % dict(said(one), back='; '.join(back(one))) for one in layouts) + '\n'


def readings(layouts):
    names = ', '.join(one.name + '_lossless' for one in layouts)
    lines = [*uses(layouts), 'use Rattle.host.proofs.Lossless.{%s}' % names, '', 'module _ (κs s w : _) where']
    return '\n'.join(lines) + '\n' + '\n'.join(SETTLED % said(one) for one in layouts) + '\n'
