"""Mofrindi: what the runs for `lineup` and `labels` are made of: inputs, claims, orders of sections, marked plants.

A marked plant shows in its output which version of which section every line comes from: section n of a table
serves channels 100 n and above, and all values go by the version.  So the whole output follows from the live
versions alone.
"""

from collections import namedtuple

from generate.pieces import two
from generate.plants import Body, application, carrier_at, digital, mode, name_of, section_of_body, spans
from generate.texts import ENGLISH, plain
from program.labels import label_line
from program.lineup import answer_words, as_bytes
from program.receiver import ORDER
from program.section import CDS, MMS, NTT, VCM, Refusal
from program.tuning import Application, Digital, ModeRecord

LINEUP, LABELS = 'lineup', 'labels'     # the programs, and so the texts that a run may ask for

# data is the whole input; twin is None or the place in the batch of the plain run that this one is grown from
# (the makers say how many runs back); claims are Claims or None; text is LINEUP or LABELS.
Run = namedtuple('Run', 'family name data twin claims text', defaults=(LINEUP,))
# whole is the whole output or None, lines must stand in it, and the channels of silent have no line.
Claims = namedtuple('Claims', 'whole lines silent')

MAP = 0x1234
MARKS = 8               # application channels behind each digital one; a version's DCM defines one of them
STRIDE = 100            # channels of a section
ONCE = (0,) * len(ORDER)        # the last numbers of a marked plant with one section of each table


# ------------------------------------------------------------------------ inputs

def run_input(map_number, sections):
    return two(map_number) + b''.join(sections)


def one_run(family, name, map_number, sections, claims=None):
    return Run(family, name, run_input(map_number, sections), None, claims)


def labels_run(family, name, map_number, sections, claims=None):
    return one_run(family, name, map_number, sections, claims)._replace(text=LABELS)


def mixed(dice, lists):
    """All things of the lists; those of one list stay in their order."""
    left = [list(each) for each in lists if each]
    whole = []
    while left:
        at = dice.below(len(left))
        whole.append(left[at].pop(0))
        if not left[at]:
            del left[at]
    return whole


# ------------------------------------------------------------------------ claims

def output(map_number, sections, refused, versions, channels=()):
    """A whole output from its numbers: versions in the order of ORDER, channels are lines without the end.

    Where there are only four versions names aren't live.
    """
    lines = ['lineup=1', 'map=%d' % map_number, 'sections=%d' % sections, 'refused=%d' % refused]
    lines += ['%s=%s' % (name.lower(), version) for name, version in zip(ORDER, list(versions) + ['none'])]
    return as_bytes(lines + ['channels=%d' % len(channels)] + list(channels))


def labels_output(map_number, version, labels):
    """A whole output of `labels` from (channel, bytes of the label), ascending."""
    lines = ['labels=1', 'map=%d' % map_number, 'ntt=%s' % version, 'channels=%d' % len(labels)]
    return as_bytes(lines + [label_line(*each) for each in labels])


def claim_whole(whole):
    return Claims(whole, (), ())


def claim_lines(*lines):
    return Claims(None, lines, ())


def channel_line(number, answer):
    return 'channel=%d %s' % (number, answer_words(answer))


def claim_answers(answers):
    """From (channel, answer or None): a line for what tunes, none for what is refused."""
    known = [(number, answer) for number, answer in answers if answer is not None and number < 4096]
    return Claims(None,
                  tuple(channel_line(*each) for each in known if not isinstance(each[1], Refusal)),
                  tuple(number for number, answer in known if isinstance(answer, Refusal)))


def claim_labels(answers):
    """From (channel, the name's bytes, a refusal or the fallback): `labels` lends an empty one."""
    known = [each for each in answers if each[0] < 4096]
    return Claims(None, tuple(label_line(number, answer if isinstance(answer, bytes) else b'')
                              for number, answer in known if not isinstance(answer, Refusal)),
                  tuple(number for number, answer in known if isinstance(answer, Refusal)))


def unmet_claim(claims, printed):
    """What of the claims an output doesn't meet, in words, or None."""
    if claims is None:
        return None
    if claims.whole is not None and printed != claims.whole:
        return 'the whole output is claimed as %r' % claims.whole
    lines = printed.decode('ascii', 'replace').splitlines()
    there = {line.split(' ', 1)[0] for line in lines}
    for line in claims.lines:
        if line not in lines:
            return 'there is no line %s' % line
    for number in claims.silent:
        if 'channel=%d' % number in there:
            return 'channel %d has a line' % number
    return None


# ------------------------------------------------------------------ marked plants

def marked_khz(version, number):
    return 60000 + 1000 * version + 125 * number


def marked_mode(version, number):
    return ModeRecord(2, 15, version & 1, 8 + version % 16, 1000 * version + number)


def marked_name(version, number):
    return plain('%d.%d' % (version, number))


def marked_names(version, number):
    """Of the digital channel of this section, and of all applications of this version."""
    return ([name_of(0, STRIDE * number, marked_name(version, number))]
            + [name_of(1, 16 * version + mark, marked_name(version, number)) for mark in range(MARKS)])


def marked_body(name, version, number):
    start = STRIDE * (number % 4)
    number = number % 4
    if name == NTT:
        return Body(0, marked_names(version, number))
    if name == CDS:
        return Body(1 + number, [carrier_at(marked_khz(version, number))])
    if name == MMS:
        return Body(1 + number, [mode(marked_mode(version, number))])
    if name == VCM:
        return Body(0, [digital(start, 1 + number, 256 * version + number, 1 + number, path=version & 1, source=start)]
                    + [application(start + 1 + mark, 16 * version + mark) for mark in range(MARKS)])
    gap = '%02X' % (version % MARKS) if version % MARKS else ''
    return Body(start, spans('81' + gap + '81'))


def marked(dice, name, version, number, last, map_number=MAP, language=ENGLISH):
    """The section (v, n, last) of a marked plant."""
    return section_of_body(dice, name, map_number, marked_body(name, version, number), version, number, last,
                           language)


def marked_table(dice, name, version, last, map_number=MAP):
    return [marked(dice, name, version, number, last, map_number) for number in range(last + 1)]


def marked_plant(dice, version, lasts=(0, 0, 0, 0), map_number=MAP):
    """All sections of one version, table after table; with only four last numbers there are no names."""
    return [section for name, last in zip(ORDER, lasts)
            for section in marked_table(dice, name, version, last, map_number)]


def marked_channels(lives):
    """(channel, answer) when (version, last) of each table is live, in the order of ORDER; names don't matter."""
    if None in lives[:4]:
        return []
    cds, mms, vcm, dcm = lives[:4]
    found = []
    for number in range(min(vcm[1], dcm[1]) + 1):
        start, mark = STRIDE * number, dcm[0] % MARKS
        if number <= min(cds[1], mms[1]):
            found.append((start, Digital(0, vcm[0] & 1, marked_khz(cds[0], number), 256 * vcm[0] + number,
                                         marked_mode(mms[0], number))))
        found.append((start + 1 + mark, Application(0, 0, 16 * vcm[0] + mark)))
    return found


def version_of(live):
    return 'none' if live is None else live[0]


def claim_marked(map_number, sections, refused, lives):
    """The whole output of a marked plant; lives has (version, last), or None for a table that isn't live."""
    lines = [channel_line(*each) for each in marked_channels(lives)]
    return claim_whole(output(map_number, sections, refused, map(version_of, lives), lines))


def marked_label(lives, number, answer):
    """Names of applications are the same in all sections, so that the lowest counts; but they go by the version."""
    if lives[4] is None:
        return b''
    version, last = lives[4]
    if isinstance(answer, Application):
        return marked_name(version, 0) if version == lives[2][0] else b''
    return marked_name(version, number // STRIDE) if number // STRIDE <= last else b''


def claim_marked_labels(map_number, lives):
    """The same for `labels`; lives has all five tables."""
    labels = [(number, marked_label(lives, number, answer)) for number, answer in marked_channels(lives)]
    return claim_whole(labels_output(map_number, version_of(lives[4]), labels))


def both_texts(family, name, map_number, sections, refused, lives):
    """The run of a marked plant for `lineup`, and again for `labels`; both whole outputs are claimed."""
    yield one_run(family, name, map_number, sections, claim_marked(map_number, len(sections), refused, lives))
    yield labels_run(family, name, map_number, sections, claim_marked_labels(map_number, lives))
