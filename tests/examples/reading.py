"""The file of `reading`: every example, and that they hold."""
import cases
from structures import START

READING = '''-- Made by tests/examples/make, from the memo's structures: an input for each layout, each sample, the header of a datagram and each kind of
-- refusal, in which every field has another value, and what is read of it, as one computed fact. Assumes nothing.
use Rattle.std.specs.Prelude.{ℕ, ◌/◌, ◌%%◌, ◌≡◌, refl, Bool, true, false, List, [], ◌∷◌, ◌++◌, map, length, replicate}
use Rattle.reading.specs.Bytes.{be4, be8}
use Rattle.reading.specs.Utf8.{among, utf8, longest_to}
use Rattle.reading.specs.Numbers.{known, header_protocols}
use Rattle.reading.specs.Script.{Span, Value, number, octets, address, part}
use Rattle.reading.specs.Cursor.{read_item, follow}
use Rattle.reading.specs.Layout.{Mode, memo, base, address_of, run_of, field, fields, last_number, opened, flows, flow, counters, samples, datagram_to}
use Rattle.reading.specs.Values.{valued, reading}
use Rattle.reading.specs.Answer.{size, rows, Header, header_of, no_header, Answer, stored, one, tried, datagrams, run, layout_of, Fields, answered, read, Listed, list_word_of, segment_at, payload_span_of, whole_span_of}

-- ---- how an example is written

-- big-endian words, as a hex dump has them
w : List ℕ → List ℕ
w [] = []
w (v ∷ rest) = v / 16777216 ∷ v / 65536 %% 256 ∷ v / 256 %% 256 ∷ v %% 256 ∷ w rest

-- an address of type 0, one of type 1 by its word, one of type 2 by its four
nowhere : Value
nowhere = address 0 (replicate 16 0)

v4 : ℕ → Value
unfolding w
v4 a = address 1 (w (a ∷ []) ++ replicate 12 0)

v6 : List ℕ → Value
unfolding w
v6 a = address 2 (w a)

-- an opaque, a string or a list that lies here: its first byte after the length or count word, and that length or count
lies : (start count : ℕ) → Value
lies a n = part (record { start = a; count = n })

desc : (kind format start extent parent depth first : ℕ) → List ℕ
desc k f s l p e o = k ∷ f ∷ s ∷ l ∷ p ∷ e ∷ o ∷ []

joined : List (List ℕ) → List ℕ
joined [] = []
joined (x ∷ xs) = x ++ joined xs

-- the header of a refusal, and of a run
blank : Header
blank = record { address_type = 0; address = replicate 16 0; sub_agent = 0; sequence = 0; uptime = 0; sample_count = 0 }

-- what a call answers: the fields of a descriptor; one datagram, or a run; where a payload lies, or all of a record; a word of a list
pub data Result : Type 0 where
  of_fields : Fields → Result
  of_input : Answer → Result
  of_span : Span → Result
  of_word : Listed → Result

pub record Example : Type 0 where
  pub call : Mode → List ℕ → Result
  pub input : List ℕ
  pub result : Result

-- an example of one mode alone; the others hold in each
in_mode : Mode → Example → Example
in_mode m e = record { call = λ _. e.call m; input = e.input; result = e.result }

-- a range that begins at byte %(start)d: a word stands before it and one behind it, and what is read of them is wrong
around : List ℕ → List ℕ
unfolding w
around ws = w (0xe1e2e3e4 ∷ ws ++ 0xe5e6e7e8 ∷ [])

-- the fields of this kind and format, of a range of these words: accepted, with the position, the steps and the values
accepts : (kind format : ℕ) → (words : List ℕ) → (at steps : ℕ) → List Value → Example
unfolding w around
accepts k f ws a n vs = record {
  call = λ mode s. of_fields (read mode k f s k f %(start)d (length (w ws)));
  input = around ws;
  result = of_fields (record { code = 0; at = a; steps = n; values = vs });
}

-- the same of a range of so many bytes, of which some are left over
begins : (kind format : ℕ) → (words : List ℕ) → (extent at steps : ℕ) → List Value → Example
unfolding around
begins k f ws l a n vs = record {
  call = λ mode s. of_fields (read mode k f s k f %(start)d l);
  input = around ws;
  result = of_fields (record { code = 0; at = a; steps = n; values = vs });
}

-- the same, refused, with the code
refuses : (kind format : ℕ) → (words : List ℕ) → (extent code at steps : ℕ) → List Value → Example
unfolding around
refuses k f ws l c a n vs = record {
  call = λ mode s. of_fields (read mode k f s k f %(start)d l);
  input = around ws;
  result = of_fields (record { code = c; at = a; steps = n; values = vs });
}

-- the same of a descriptor of this kind and format, which may be others than those asked for
mistakes : (asked_kind asked_format kind format : ℕ) → (words : List ℕ) → (extent code at steps : ℕ) → List Value → Example
unfolding around
mistakes ak af k f ws l c a n vs = record {
  call = λ mode s. of_fields (read mode ak af s k f %(start)d l);
  input = around ws;
  result = of_fields (record { code = c; at = a; steps = n; values = vs });
}

-- the segment at byte %(start)d
segment : (words : List ℕ) → (code at steps : ℕ) → List Value → Example
unfolding around
segment ws c a n vs = record {
  call = λ _ s. of_fields (segment_at s %(start)d);
  input = around ws;
  result = of_fields (record { code = c; at = a; steps = n; values = vs });
}

-- the payload of a descriptor's range, and all of what it is the range of
pays : (words : List ℕ) → (start extent : ℕ) → (at count : ℕ) → Example
unfolding around
pays ws l n a c = record {
  call = λ _ s. of_span (payload_span_of s l n);
  input = around ws;
  result = of_span (record { start = a; count = c });
}

stands : (words : List ℕ) → (start extent first : ℕ) → (at count : ℕ) → Example
unfolding around
stands ws l n o a c = record {
  call = λ _ s. of_span (whole_span_of s l n o);
  input = around ws;
  result = of_span (record { start = a; count = c });
}

-- a word of a list
lists : (words : List ℕ) → (start count index : ℕ) → Bool → (value : ℕ) → Example
unfolding around
lists ws l n i there v = record {
  call = λ _ s. of_word (list_word_of s l n i);
  input = around ws;
  result = of_word (record { present = there; value = v });
}

-- a datagram of these words, with a store that its descriptors fill
decodes : (words : List ℕ) → (at steps needed : ℕ) → Header → List (List ℕ) → Example
unfolding w joined
decodes ws a n k head ds = record {
  call = λ mode s. of_input (one mode s (replicate (length (joined ds)) 165));
  input = w ws;
  result = of_input (record { code = 0; at = a; steps = n; needed = k; head = head; store = joined ds });
}

-- the same as a run, which has no header
runs : (words : List ℕ) → (at steps needed : ℕ) → List (List ℕ) → Example
unfolding w joined blank
runs ws a n k ds = record {
  call = λ mode s. of_input (run mode s (replicate (length (joined ds)) 165));
  input = w ws;
  result = of_input (record { code = 0; at = a; steps = n; needed = k; head = blank; store = joined ds });
}

-- a datagram of these words that is refused, with a store of so many words, which stay
stops : (words : List ℕ) → (room code at steps needed : ℕ) → Example
unfolding w blank
stops ws m c a n k = record {
  call = λ mode s. of_input (one mode s (replicate m 165));
  input = w ws;
  result = of_input (record { code = c; at = a; steps = n; needed = k; head = blank; store = replicate m 165 });
}

-- ---- the examples

'''

HELPERS = 'in_mode w nowhere v4 v6 lies desc accepts begins refuses mistakes segment pays stands lists decodes runs stops'.split()
TABLES = (
    ('flow_records', 'the flow records', cases.flow_records),
    ('counter_records', 'the counter records', cases.counter_records),
    ('sample_fields', 'the fields of a sample before its records', cases.samples),
    ('headers', 'the header of a datagram, by field reading', cases.headers),
    ('segments', 'a segment of an AS path', cases.segments),
    ('spans', "a descriptor's payload, and all of its record, as start and count", cases.spans),
    ('list_words', 'a word of a list: whether it is there, and its value', cases.list_words),
    ('two_modes', 'a sampled Ethernet record of 20, 23 and 24 bytes, in each mode', cases.two_modes),
    ('refusals', 'refusals of field reading, whose values are all zero: what is left out is an input above the limit, code 1', cases.refusals),
    ('inputs', 'one datagram, with its header by the names of its fields; and runs', cases.whole),
    ('undecoded', 'refusals that only a datagram meets', cases.undecoded),
)


def indented(text):
    return text.replace('\n', '\n    ')


def table(name, about, examples):
    body, called = [], ''
    for i, e in enumerate(examples):
        body.append('    -- %s\n    %s%s' % (e.name, '∷ ' if i else '', indented(e.call)))
        called += ' ' + e.call
    used = [h for h in HELPERS if h in called.replace('(', ' ').split()]
    return '-- %s\nunfoldable pub %s : List Example\nunfolding %s\n%s =\n%s\n    ∷ []\n' % (about, name, ' '.join(used), name, '\n'.join(body))


def text():
    tables = '\n'.join(table(name, about, list(make())) for name, about, make in TABLES)
    names = ' '.join(name for name, _, _ in TABLES)
    return READING % {'start': START} + tables + '''
pub examples : List Example
unfolding %s
examples = %s

pub the_examples_hold : (mode : Mode) → map (λ (e : Example). e.call mode e.input) examples ≡ map (λ (e : Example). e.result) examples
unfolding examples be4 be8 among utf8 longest_to known header_protocols follow read_item address_of run_of field fields last_number opened flows flow counters samples datagram_to size rows header_of no_header valued reading layout_of answered read segment_at stored one tried datagrams run list_word_of payload_span_of whole_span_of
the_examples_hold mode = refl
''' % (names, ' ++ '.join(name for name, _, _ in TABLES))
