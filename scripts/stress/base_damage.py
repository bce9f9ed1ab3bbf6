"""Bases and segments that are damaged, missing, twice or another journal's: a start and a rebase are refused with status 3 and the word for that, and
all files stay as they are. A part of `stress crash`."""
import os
import tempfile
import time

import bases
from stress.based import Based
from stress.journal_walk import Differs
from stress.service import Ended

LAST_BYTES, SHORT_STEP, SHORT_SHARE = 4_096, 89, 3
"""How many bytes at a base's end it is cut at, each. With --short one in so many bytes, and one in so many of the other cases."""
BASE, OTHER = "journal: base", "0" * 64
ROWS = ['"kept","row":{"k":2,"s":"a","f":true}', '"kept","row":{"k":1,"s":"b","f":false}', '"kept","row":{"k":2,"s":"\u00e4\\n","f":true}',
        '"side","row":{"n":4}', '"side","row":{"n":4}']
MORE = ['{"cmd":"erase","id":1}', '{"cmd":"relocate","index":"q","id":2,"before":0}', '{"cmd":"insert","table":"kept","row":{"k":1,"s":"c","f":true}}',
        '{"cmd":"replace","id":0,"row":{"k":0,"s":"a","f":false}}', '{"cmd":"insert","table":"side","row":{"n":3}}']


def chain(path, folder):
    """A journal with a base and three segments behind it, the last of which ends without room; and one of another past."""
    kept = Based(path, folder, "damaged")
    kept.says(*(f'{{"cmd":"insert","table":{it}}}' for it in ROWS))
    kept.rebases()
    kept.says(*MORE)
    schema = kept.base().schema
    with open(kept.newest(), "rb") as file:
        text = file.read().rstrip(b"\0")
    header, *lines = text.splitlines(keepends=True)
    parts, previous = [lines[:3], lines[3:7], lines[7:]], None
    for number, part in enumerate(parts, 2):
        text = (header if number == 2 else bases.segment_header(previous, number, schema)) + b"".join(part)
        with open(bases.segment_path(kept.journal, number), "wb") as file:
            file.write(text)
        previous = bases.sum_of(text)
    return kept


def refused(kept, folder, files, word, what, also_rebased=True):
    """A start and a rebase of these files are refused by a word, and change none of them. The word may go on where it ends in a blank."""
    with tempfile.TemporaryDirectory(dir=folder) as home:
        twin = kept.twin(home, files)
        wanted = word if word.endswith(" ") else f"{word}: {twin.journal}"
        for name, ended in [("a start", started(twin))] + [("a rebase", twin.rebased())] * also_rebased:
            if ended[0] != 3 or not (ended[1] == wanted or wanted.endswith(" ") and ended[1].startswith(wanted)):
                raise Differs(f"{what}: status 3 and {wanted!r} were wanted, {name} ended with {ended[0]}: {ended[1]}")
        if twin.files() != files:
            raise Differs(f"{what}: a file that was refused has changed")


def started(kept):
    """How a start ends."""
    try:
        with kept.started():
            return None, "it listens"
    except Ended as ended:
        return ended.status, ended.said


def named(kept, number):
    return os.path.basename(bases.segment_path(kept.journal, number))


def without(files, name):
    return {it: data for it, data in files.items() if it != name}


def segments_amiss(kept):
    """Segments that aren't one journal, what that is, and the word for it."""
    files, names = kept.files(), [named(kept, it) for it in range(5)]
    two, three, four = (files[names[it]] for it in (2, 3, 4))
    schema, rest = kept.base().schema, three.partition(b"\n")[2]
    header = bases.segment_header

    def with_third(data):
        """One whose third segment is another one, and whose fourth names its sum."""
        return {**files, names[3]: data, names[4]: header(bases.sum_of(data), 4, schema) + four.partition(b"\n")[2]}

    yield "the base's segment is missing", without(files, names[2]), "journal: segment 2"
    yield "a segment is missing", without(files, names[3]), "journal: segment 3"
    yield "the second segment is there twice", {**files, names[3]: two}, "journal: segment 3"
    yield "the third segment is there twice", {**files, names[4]: three}, "journal: segment 4"
    yield "a segment has the sum of another one", with_third(header(OTHER, 3, schema) + rest), "journal: segment 3"
    yield "a segment has another schema", with_third(header(bases.sum_of(two), 3, OTHER) + rest), "journal: segment 3"
    yield "a segment has another revision", with_third(header(bases.sum_of(two), 3, schema, 1) + rest), "journal: segment 3"
    yield "the base's segment is another journal's", {**files, names[2]: header(OTHER, 2, schema) + two.partition(b"\n")[2]}, BASE
    yield "a segment is empty, and a later one is there", with_third(b""), "journal: segment 3"
    yield "a segment has a part of its header, and a later one is there", with_third(three[:50]), "journal: segment 3"
    yield "a segment ends within a line, and a later one is there", with_third(three[:-1]), "journal: segment 3"
    yield "a segment has room, and a later one has its sum", {**files, names[2]: two[:-9] + bytes(9)}, "journal: segment 2"
    yield "a line before the newest segment is damaged", with_third(three + b'{"cmd":"fly"}\n'), f"journal: segment 3 line {three.count(10) + 1}"
    yield "a line of the newest segment is damaged", {**files, names[4]: four + b"{\n"}, f"journal: segment 4 line {four.count(10) + 1}"
    looks = {**files, names[2]: two + b'{"cmd":"size"}\n'}
    yield "a line of the first segment that is asked is a look-up", looks, f"journal: segment 2 line {two.count(10) + 1}"


def bases_amiss(kept):
    """Bases that are whole, but none of this journal or of this schema, what that is, and the word for it."""
    base = kept.base()
    first, second = base.tables
    rows, ids = first.rows, list(first.rows)

    def of(**more):
        return base._replace(tables=[first._replace(**more), second])

    yield "another schema", base._replace(schema=OTHER), BASE
    yield "another header's sum", base._replace(sum=OTHER), BASE
    yield "segment 0", base._replace(segment=0), BASE
    yield "a segment that isn't there", base._replace(segment=9), "journal: segment 9"
    yield "a line that isn't there", base._replace(line=99), "journal: segment 2 line "
    yield "a table less", base._replace(tables=[first]), BASE
    yield "a table more", base._replace(tables=[first, second, second]), BASE
    yield "tables in another order", base._replace(tables=[second, first]), BASE
    yield "a table of another name", of(name="kepd"), BASE
    many = {it: [0, str(it), True] for it in range(25)}
    yield "more rows than the schema allows", of(rows=many, next=25, arrivals=25, lists=[list(many)] * 5), BASE
    yield "a row whose id isn't below the next one", of(next=ids[-1]), BASE
    yield "rows whose ids don't rise", of(rows=dict(reversed(rows.items()))), BASE
    yield "fewer arrivals than rows", of(arrivals=len(rows) - 1), BASE
    yield "a counter beyond 2^63 - 1", of(next=2**63), BASE
    yield "a value of another type", of(rows={**rows, ids[0]: [True, *rows[ids[0]][1:]]}), BASE
    yield "a text that is too long", of(rows={**rows, ids[0]: [2, "a" * 1_025, True]}), BASE
    yield "a value less", of(rows={**rows, ids[0]: rows[ids[0]][:-1]}), BASE
    yield "a row with the unique key of another one", of(rows={**rows, ids[0]: rows[ids[1]]}), BASE
    yield "a list less", of(lists=first.lists[:-1]), BASE
    yield "a list more", of(lists=[*first.lists, ids]), BASE
    for x in range(len(first.lists)):
        for what, ids_now in (("lacks an id", ids[:-1]), ("has an id twice", [*ids[:-1], ids[0]]), ("has an id of no row", [*ids[:-1], first.next])):
            yield f"the list of index {x + 1} {what}", of(lists=[*first.lists[:x], ids_now, *first.lists[x + 1:]]), BASE


def texts_amiss(text):
    """A base's text that was changed, and what that is."""
    front, last = text[:text.rindex(b"\n", 0, -1) + 1], text[text.rindex(b"\n", 0, -1) + 1:]
    yield "nothing", b""
    yield "a byte behind its end", text + b"\n"
    yield "a base twice", text + text
    yield "no digest", front
    yield "a digest alone", bases.compact({"sha256": bases.sum_of(b"")}) + b"\n"
    yield "a changed digit", front + last.replace(last[11:12], b"1" if last[11:12] == b"0" else b"0", 1)
    for what, was, now in (("format 2", b'{"base":1,', b'{"base":2,'), ("a blank", b'{"base":1,', b'{"base": 1,'), ("zeros in front", b'"line":0', b'"line":00')):
        changed = front.replace(was, now, 1)
        yield what, changed + bases.compact({"sha256": bases.sum_of(changed)}) + b"\n"


def cuts_of(text, step):
    """How long a base is that is torn within its last bytes."""
    return range(max(0, len(text) - LAST_BYTES), len(text), step)


def amiss(kept, text):
    """The files of journals that are damaged, what that is, and the word for it."""
    files, name = kept.files(), os.path.basename(bases.base_path(kept.journal))
    yield from segments_amiss(kept)
    for what, base, word in bases_amiss(kept):
        yield f"a base with {what}", {**files, name: bases.text_of(base)}, word
    for what, changed in texts_amiss(text):
        yield f"a base's text: {what}", {**files, name: changed}, BASE


def damaged(path, options, folder):
    """All of these are refused by name, and the journal without them goes on."""
    began = time.monotonic()
    kept = chain(path, tempfile.mkdtemp(dir=folder))
    files, name = kept.files(), os.path.basename(bases.base_path(kept.journal))
    text = files[name]
    if bases.text_of(bases.read_base(text)) != text:
        raise Differs("the base that the service wrote isn't written as the format has it")
    cases = list(amiss(kept, text))[options.seed % SHORT_SHARE if options.short else 0::SHORT_SHARE if options.short else 1]
    for n, (what, changed, word) in enumerate(cases):
        refused(kept, folder, changed, word, what, not options.short or n % 4 == 0)
    cuts = cuts_of(text, SHORT_STEP if options.short else 1)
    for size in cuts:
        refused(kept, folder, {**files, name: text[:size]}, BASE, f"a base of {len(text)} bytes, cut at byte {size}", size % 8 == 0)
    whole = kept.twin(tempfile.mkdtemp(dir=folder))
    whole.number, whole.known = 4, files[named(kept, 4)]
    whole.goes_on()
    whole.rebases()
    whole.goes_on()
    return f"{len(cases)} damaged bases and segments and {len(cuts)} torn bases are refused by name; {time.monotonic() - began:.0f} s"
