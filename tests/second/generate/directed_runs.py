"""Mofrindi: directed runs for `lineup`, each family with a name for every run; those of names are in label_runs.py.

Wherever the output follows by hand from document 01 it is claimed, whole where possible.
"""

import itertools

from generate.check_trials import flipped
from generate.clauses_of_names import from_clauses
from generate.growth import WAYS, grown_input
from generate.lookup_trials import LOOKUPS
from generate.pieces import NUMBERS, base, close, reseal, revision, seal
from generate.plants import FIVE, STANDARD, section_of_body, standard, standard_answer
from generate.run_parts import (MAP, ONCE, Run, claim_answers, claim_lines, claim_marked, claim_whole, marked,
                                marked_plant, marked_table, mixed, one_run, output, run_input)
from generate.texts import ENGLISH, another_language
from generate.trials import MAP_SCRIPTS, MAPPED, SCRIPTS, another_owner, map_of, section_of, shuffled
from generate.tuning_trials import full_plant, trial_store
from program.receiver import MOST_LAST, ORDER, read
from program.section import CDS, DCM, MMS, NTT, VCM, Refusal, section_length
from program.tuning import held_bytes

NONE = ('none',) * len(ORDER)


# ------------------------------------------------------------------ hardly any bytes

def tiny(dice):
    """Up to three bytes, and sections of three bytes: the whole output is known."""
    for data in [b''] + [bytes([byte]) for byte in (0, 1, 0x12, 0xC2, 0xC4, 0xFF)]:
        yield Run('tiny', '%d bytes' % len(data), data, None, claim_whole(b'lineup=refused\n'))
    for number in (0, 1, 0xFF, 0x100, 0x1234, 0x3412, 0x7FFF, 0x8000, 0xFFFF, 0xC200):
        yield one_run('tiny', 'map %d alone' % number, number, [], claim_whole(output(number, 0, 0, NONE)))
    rests = ['00', 'C2', 'FF', 'C2 30', 'FF FF', '00 00', 'C2 30 00', 'C2 30 05', 'C4 3F FF', '00 00 00 00',
             'C2 3F FF 00', 'C2 30 01', 'C2 30 04 00 00 00 00', 'C2 30 05 00 00 00 00 00',
             'C2 30 06 00 00 00 00 00']
    for rest in map(bytes.fromhex, rests):
        sections = 1 if len(rest) < 4 or rest[0] else 2
        yield one_run('tiny', 'one section of %s' % rest.hex(), MAP, [rest],
                      claim_whole(output(MAP, sections, sections, NONE)))
    for count in (1, 2, 3, 7, 64, 255, 256, 257, 1000):
        for rest in (b'', b'\0', b'\0\0'):
            sections = count + (1 if rest else 0)
            yield one_run('tiny', '%d sections with L = 0, then %d bytes' % (count, len(rest)), MAP,
                          [b'\xC2\x30\x00'] * count + [rest],
                          claim_whole(output(MAP, sections, sections, NONE)))


# -------------------------------------------------------------------------- cutting

def live_after(sections, count):
    """(version, last) of each table once so many of the sections of marked_plant() have come."""
    return [(3, 0) if at < count else None for at in range(len(sections))]


def cut_anywhere(dice):
    """A run that ends anywhere: what is whole counts, what isn't is refused."""
    sections = marked_plant(dice, 3)
    data = run_input(MAP, sections)
    ends = [2 + sum(map(len, sections[:count])) for count in range(len(sections) + 1)]
    for end in range(2, len(data) + 1):
        count = max(at for at, each in enumerate(ends) if each <= end)
        unfinished = 0 if ends[count] == end else 1
        yield Run('cut anywhere', '%d of %d bytes' % (end, len(data)), data[:end], None,
                  claim_marked(MAP, count + unfinished, unfinished, live_after(sections, count)))


def long_filler(length, byte=0):
    """3 + L bytes that are no section."""
    return bytes([0xC2, 0x30 | length >> 8, length & 0xFF]) + bytes([byte]) * length


LENGTHS = (0, 1, 2, 3, 4, 5, 6, 100, 255, 256, 257, 1020, 1021, 1022, 1023, 1024, 1025, 2048, 4094, 4095)


def lengths(dice):
    """Every kind of L between the sections of a plant: as many bytes as it says, one fewer, and one more."""
    lives = [(3, 0)] * 4
    for length in LENGTHS:
        filler = long_filler(length, 0xC4)
        for place in (0, 2, 4):
            sections = marked_plant(dice, 3)
            sections.insert(place, filler)
            yield one_run('lengths', 'L = %d at section %d' % (length, place), MAP, sections,
                          claim_marked(MAP, 5, 1, lives))
        for data in (filler[:-1], filler + b'\0', filler + b'\0\0'):
            count = 5 if len(data) < len(filler) else 6
            yield one_run('lengths', 'L = %d, %d bytes at the end' % (length, len(data)), MAP,
                          marked_plant(dice, 3) + [data], claim_marked(MAP, count, count - 4, lives))
        # One byte too few or too many in the middle: everything behind it is cut elsewhere.
        for data in (filler[:-1], filler + b'\0'):
            sections = marked_plant(dice, 3)
            yield one_run('lengths', 'L = %d, %d bytes in front' % (length, len(data)), MAP,
                          [data] + sections)


def wrong_length(dice):
    """A section of the plant whose L says more or less than it has, its CRC as it was and put right."""
    for name, by in itertools.product(ORDER, (-5, -3, -2, -1, 1, 2, 3, 4, 7, 200)):
        for right in (False, True):
            sections = marked_plant(dice, 3, ONCE)
            at = ORDER.index(name)
            old = sections[at]
            length = section_length(old) + by
            changed = bytes([old[0], old[1] & 0xF0 | length >> 8, length & 0xFF]) + old[3:]
            sections[at] = reseal(changed) if right else changed
            yield one_run('wrong length', '%s, L %+d' % (name, by), MAP, sections + marked_plant(dice, 4))


# ---------------------------------------------------------------- offers by a script

OTHERS = (2, 1)         # version and last of the tables that a script isn't about
FLIP = 29               # a version that no script has


def brought(dice, name, lives, gathering, half):
    """Sections that bring a fresh box to where a script begins; one version more for the other half."""
    sections = [marked(dice, name, FLIP, 0, 0)] if half else []
    if lives.present:
        sections += marked_table(dice, name, lives.version, lives.last)
    for number in range(MOST_LAST + 1):
        if gathering.held >> number & 1:
            sections.append(marked(dice, name, gathering.version, number, gathering.last))
    return sections


def script_run(dice, name, line, half):
    """The sections of a script, how many are refused, and what is live then."""
    lives, gathering, script = line[2:]
    live = (lives.version, lives.last) if lives.present else (FLIP, 0) if half else None
    sections, refused = brought(dice, name, lives, gathering, half), 0
    for step in script.split(', '):
        what, words = step.split(' ', 1)
        version, number, last = map(int, what.rstrip('*').split('/'))
        owner = another_owner(dice, MAP) if what.endswith('*') else (MAP, ENGLISH)
        sections.append(marked(dice, name, version, number, last, *owner))
        refused += words.startswith('refused')
        live = (version, last) if words.startswith('live') else live
    return sections, refused, live


def with_others(dice, name, sections):
    """The sections of one table mixed with all of the others."""
    return mixed(dice, [sections] + [marked_table(dice, other, *OTHERS) for other in ORDER if other != name])


def scripts(dice):
    """Every script of trials.py for every table; from a fresh box, and with the halves changed before."""
    for tables, lines in ((ORDER, SCRIPTS), (MAPPED, MAP_SCRIPTS)):
        for name, line, half in itertools.product(tables, lines, (0, 1)):
            sections, refused, live = script_run(dice, name, line, half)
            lives = [live if other == name else OTHERS for other in ORDER]
            whole = with_others(dice, name, sections)
            yield one_run('script: ' + line[0], '%s, %s, half %d' % (line[1], name, half), MAP, whole,
                          claim_marked(MAP, len(whole), refused, lives))


def orders(dice):
    """Every order of the sections of one table, those of the others between them, some sent twice."""
    for last, name in itertools.product(range(MOST_LAST + 1), ORDER):
        for numbers in itertools.permutations(range(last + 1)):
            sections = [marked(dice, name, 17, number, last) for number in numbers]
            if dice.chance(2):
                sections = [each for section in sections for each in (section, section)]
            whole = with_others(dice, name, sections)
            lives = [(17, last) if other == name else OTHERS for other in ORDER]
            yield one_run('orders', '%s, %s' % (' '.join(map(str, numbers)), name), MAP, whole,
                          claim_marked(MAP, len(whole), 0, lives))


def interleaved(dice):
    """All tables in any order, each with its own version and last number, all sent once or twice."""
    for turn in range(40):
        lasts = [dice.below(4) for _ in ORDER]
        versions = [dice.below(32) for _ in ORDER]
        map_number = dice.below(0x10000)
        whole = [section for name, version, last in zip(ORDER, versions, lasts)
                 for section in marked_table(dice, name, version, last, map_number)]
        whole = shuffled(dice, whole * (1 + turn % 2))
        yield one_run('interleaved', 'versions ' + ' '.join(map(str, versions)), map_number, whole,
                      claim_marked(map_number, len(whole), 0, list(zip(versions, lasts))))


# ------------------------------------------------------------- versions after each other

def never_complete(dice):
    """Each choice of tables that aren't live: nothing of them, or all sections but one, comes."""
    for whole_tables in itertools.product((False, True), repeat=len(ORDER)):
        for partly in (False, True):
            sections, lives = [], []
            for name, complete in zip(ORDER, whole_tables):
                last = dice.between(1, 3)
                table = marked_table(dice, name, 9, last)
                if not complete:
                    table = shuffled(dice, table)[1:] * 2 if partly else []
                sections.append(table)
                lives.append((9, last) if complete else None)
            sent = mixed(dice, sections)
            said = ' '.join(name for name, complete in zip(ORDER, whole_tables) if not complete) or 'none'
            yield one_run('never complete', '%s%s' % (said, ', partly there' if partly else ''), MAP, sent,
                          claim_marked(MAP, len(sent), 0, lives))


def replaced(dice):
    """A version goes live and another follows: wholly, all but one section, or its first one only."""
    for name, old, new, how in itertools.product(ORDER, (0, 3), (0, 1, 3), ('wholly', 'all but one', 'one')):
        if how != 'wholly' and new == 0:
            continue
        lasts = [old if other == name else 2 for other in ORDER]
        later = shuffled(dice, marked_table(dice, name, 12, new))
        later = later if how == 'wholly' else later[1:] if how == 'all but one' else later[:1]
        sections = marked_plant(dice, 5, lasts) + later
        # Repeats of what is still live drop nothing.
        if how != 'wholly':
            sections += [marked(dice, name, 5, 0, old)]
        lives = [(5, last) for last in lasts]
        if how == 'wholly':
            lives[ORDER.index(name)] = (12, new)
        yield one_run('replaced', '%s, last %d then %d, %s' % (name, old, new, how), MAP, sections,
                      claim_marked(MAP, len(sections), 0, lives))
    for name in ORDER:
        for last in range(MOST_LAST + 1):
            sections = marked_plant(dice, 5, (3,) * len(ORDER))
            # A version comes back, when its sections of the first time have been written over.
            for version in (6, 7, 6, 31, 0, 31):
                sections += marked_table(dice, name, version, last)
            lives = [(31, last) if other == name else (5, 3) for other in ORDER]
            yield one_run('replaced', '%s, six versions of last %d' % (name, last), MAP, sections,
                          claim_marked(MAP, len(sections), 0, lives))


def every_version(dice):
    """All 32 versions of all tables, up and down, and half of them."""
    for said, versions in (('up', range(32)), ('down', range(31, -1, -1))):
        for lasts, count in itertools.product((ONCE, (1, 0, 1, 0, 1), (0, 1, 0, 1)), (16, 32)):
            sections = [each for version in versions[:count] for each in marked_plant(dice, version, lasts)]
            lives = [(versions[count - 1], last) for last in lasts]
            yield one_run('every version', '%s, %d of them' % (said, count), MAP, sections,
                          claim_marked(MAP, len(sections), 0, lives))


def first_held(dice):
    """Two different sections with the same number: the first one held stays."""
    for name, last in itertools.product(ORDER, (0, 1, 3)):
        good = marked_table(dice, name, 9, last)
        for number in range(last + 1):
            # The body of another version under this version's name.
            other = marked(dice, name, 20, number, last)
            imposter = reseal(other.replace(other_revision(20, number, last, other),
                                            revision(9, number, last)))
            sections = good[:number + 1] + [imposter] + good[number + 1:] + [imposter]
            whole = with_others(dice, name, sections)
            lives = [(9, last) if each == name else OTHERS for each in ORDER]
            yield one_run('first held', '%s %d of %d' % (name, number, last), MAP, whole,
                          claim_marked(MAP, len(whole), 0, lives))


def other_revision(version, number, last, section):
    """The revision descriptor as it stands in this section, whatever its reserved bits."""
    for bits in range(8):
        found = bytes([0x93, 3, bits << 5 | version, number, last])
        if found in section:
            return found
    raise ValueError('no revision')


# ---------------------------------------------------------------------- other maps

def other_maps(dice):
    """Sections of other maps, also whole tables of them, between ours; 0xC2 has no map."""
    others = [MAP ^ 1 << bit for bit in range(16)] + [0x3412, 0, 0xFFFF]
    for other in others:
        ours = marked_plant(dice, 5, (1, 1, 1, 1))
        foreign = [marked(dice, name, version, 0, last, other) for name in (VCM, DCM)
                   for version, last in ((5, 1), (9, 0), (5, 3), (9, 200))]
        whole = mixed(dice, [ours, foreign])
        yield one_run('other maps', '0x%04X beside ours' % other, MAP, whole,
                      claim_marked(MAP, len(whole), 0, [(5, 1)] * 4))
        theirs = marked_plant(dice, 5, (1, 1, 1, 1), other)
        yield one_run('other maps', '0x%04X alone' % other, MAP, theirs,
                      claim_marked(MAP, len(theirs), 0, [(5, 1), (5, 1), None, None]))


# ------------------------------------------------------------------- reading, 3 to 11

def in_step(section):
    """As many bytes as it says, so that what follows is cut right."""
    return len(section) >= 3 and len(section) == 3 + section_length(section)


def reading_clauses(dice):
    """Every clause of section.py's batch between the sections of a plant."""
    for at, item in enumerate(from_clauses(dice, 1)):
        map_number = map_of(item.section) if at % 2 else MAP
        sections = marked_plant(dice, 3, map_number=map_number)
        name, claims, lives = 'clauses of reading', None, [(3, 0)] * 4
        if not in_step(item.section):
            if len(item.section) < 3 or len(item.section) < 3 + section_length(item.section):
                claims = claim_marked(map_number, len(sections) + 1, 1, lives)
                claims = claims if item.section else None
            yield one_run(name, item.detail + ', at the end', map_number, sections + [item.section], claims)
            continue
        place = at % 5
        whole = sections[:place] + [item.section] + sections[place:] + [item.section]
        if item.claim:
            claims = claim_marked(map_number, len(whole), 2, lives)
        yield one_run(name, item.detail, map_number, whole, claims)


def single_sections(dice):
    """One section alone in a run: each refusal, and each table."""
    for name in ORDER:
        right = base(name)
        cases = [('as it is', right, 0), ('wrong CRC', right[:-1] + bytes([right[-1] ^ 1]), 1),
                 ('table 0xC1', reseal(b'\xC1' + right[1:]), 1),
                 ('protocol version 1', reseal(right[:3] + b'\x01' + right[4:]), 1),
                 ('zero bit of byte 1', reseal(right[:1] + bytes([right[1] | 0x80]) + right[2:]), 1),
                 ('no reserved bit', reseal(right[:1] + bytes([right[1] & 0x0F]) + right[2:]), 0)]
        for said, section, refused in cases:
            yield one_run('single sections', '%s, %s' % (name, said), MAP, [section],
                          claim_whole(output(MAP, 1, refused, NONE)))


# ---------------------------------------------------------------------- lookups

def lure(dice, name, table, map_number):
    """A section of a version that is never complete; for before the table's own or behind all of them."""
    version = (table.live.version + dice.between(1, 31)) % 32
    last = dice.between(1, MOST_LAST)
    return section_of(dice, name, map_number, version, dice.below(last + 1), last)


def live_places(trial):
    """The live sections of each table; of names none where they aren't live or not in their place."""
    store = bytes(trial_store(trial))
    for name, table in zip(ORDER, trial.state.tables):
        own = [held_bytes(store, name, table.half, number) for number in range(table.live.last + 1)]
        there = table.live.present and not any(isinstance(read(each), Refusal) for each in own)
        yield own if there or name != NTT else []


def run_of_trial(dice, trial):
    """The live sections of a trial of tuning in any order, with or without others around; the claims stay."""
    lists = []
    map_number = trial.state.map_number
    for (name, table), own in zip(zip(ORDER, trial.state.tables), live_places(trial)):
        if not own:
            continue
        sent = shuffled(dice, own)
        if dice.chance(4):
            sent = shuffled(dice, sent + sent)
        if dice.chance(4):
            sent.insert(0, lure(dice, name, table, map_number))
        if dice.chance(4):
            sent += [lure(dice, name, table, map_number), sent[-1]]
        lists.append(sent)
    return one_run('lookup: ' + trial.family, trial.name, map_number, mixed(dice, lists),
                   claim_answers(zip(trial.channels, trial.claims)))


def lookups(dice):
    """Searches, frequencies and refusals 17 to 21: all directed trials of lookup_trials.py as runs."""
    for make_trials in LOOKUPS:
        for trial in make_trials(dice):
            yield run_of_trial(dice, trial)


def plant_sections(dice, plant, version, map_number=MAP):
    return {name: [section_of_body(dice, name, map_number, body, version, number, len(plant[name]) - 1)
                   for number, body in enumerate(plant[name])] for name in plant}


def full_plants(dice):
    """158 carriers and some 400 channels; then another such plant takes its place, wholly or partly."""
    for turn in range(4):
        first, second = (plant_sections(dice, full_plant(dice), version) for version in (7, 8))
        sections = mixed(dice, [shuffled(dice, first[name]) for name in ORDER])
        for name in ORDER[:turn]:
            sections += second[name]
        for name in ORDER[turn:]:
            sections += second[name][1:]
        yield one_run('full plant', '%d tables replaced' % turn, MAP, sections,
                      claim_lines('sections=%d' % len(sections), 'refused=0'))


def standard_plants(dice):
    """The standard plant with every one of its channels claimed, in many orders."""
    answers = [(number, as_answer(standard_answer(number))) for number in STANDARD]
    for turn in range(30):
        sections = plant_sections(dice, standard(), turn)
        lists = [shuffled(dice, sections[name]) for name in sections]
        yield one_run('standard plant', 'order %d' % turn, MAP, mixed(dice, lists),
                      claim_answers(answers)._replace(lines=claim_answers(answers).lines + ('channels=12',)))


def as_answer(answer):
    return Refusal(answer) if isinstance(answer, int) else answer


# ---------------------------------------------------------------------- growth

def growth_bases(dice):
    """Runs that are worth growing: plants, repeats, other maps, refused sections, versions that follow."""
    yield 'plant', marked_plant(dice, 5, (1, 2, 0, 3, 1))
    standard_sections = plant_sections(dice, standard(FIVE), 5)
    yield 'standard plant', [each for name in ORDER for each in standard_sections[name]]
    first = marked_plant(dice, 5, (1,) * len(ORDER))
    yield 'repeats', mixed(dice, [first, first])
    foreign = [marked(dice, name, 5, 0, 1, MAP ^ 1, another_language(dice, ENGLISH)) for name in MAPPED]
    above = [marked(dice, name, 6, 0, 4) for name in ORDER]
    other_last = [marked(dice, name, 5, 0, 2) for name in ORDER]
    yield 'answers', mixed(dice, [first, foreign, above]) + other_last
    yield 'versions', first + marked_plant(dice, 6, ONCE) + marked_plant(dice, 7, (3,) * len(ORDER))[:-1]
    refused = [base(CDS)[:-1] + b'\0', reseal(b'\xC3' + base(MMS)[1:]), long_filler(4095), base(VCM)[:-6]]
    yield 'refused ones', mixed(dice, [first, refused[:3]]) + refused[3:]
    yield 'lists', [section for name in ORDER for section in [listed_section(dice, name)] * 2]


LISTED = {
    CDS: '00 01 03 01 02 80 30 81 C8 00 01 00 00 15 18 01 40 00 01 00 00 9F 50 02 93 03 E6 00 00 41 01 AA',
    MMS: '00 01 02 02 2F 08 00 4D 29 AD 00 2F 10 00 51 CB 99 01 40 01 AA',
    VCM: '00 00 12 34 20 00 00 00 00 00 03 00 03 00 12 34 02 00 03 01 00 00 08 10 12 35 02 80 00 00 01 40 00 '
         '00 0A 80 00 07 00 00 00 00 00',
    DCM: '00 01 12 34 00 02 03 83 05 81',
    NTT: '00 65 6E 67 06 03 00 12 34 06 83 00 03 4F 6E 65 00 00 12 35 04 3F 02 04 16 01 93 00 '
         '80 00 07 05 A0 01 AA 10 00 02 40 00 41 01 AA',
}


def listed_section(dice, name):
    """Records with lists, some of them empty; with C1, C12, C9 and C10, and names for these and the application."""
    return seal(NUMBERS[name], bytes.fromhex(LISTED[name]) + revision(5, 0, 0))


GROWN = 'grown'


def grown(dice):
    """Every way of growth on every base; each grown run stands behind its plain twin."""
    for said, sections in growth_bases(dice):
        data = run_input(MAP, sections)
        yield Run(GROWN, '%s, plain' % said, data, None, None)
        for back, (way, grow) in enumerate(WAYS.items(), 1):
            yield Run(GROWN, '%s, %s' % (said, way), grown_input(dice, data, grow), back, None)
        for more in range(4):
            back = len(WAYS) + 1 + more
            yield Run(GROWN, '%s, some sections' % said, grown_input(dice, data, some=2), back, None)


# ---------------------------------------------------------------------- damage

def single_bits(dice):
    """Of each three neighbouring bits of a small plant one turned over, the CRC of its section put right."""
    sections = [listed_section(dice, name) for name in ORDER]
    for at, section in enumerate(sections):
        for bit in range(dice.below(3), 8 * (len(section) - 4), 3):
            yield one_run('single bits', '%s, bit %d' % (ORDER[at], bit), MAP,
                          sections[:at] + [reseal(flipped(section, bit))] + sections[at + 1:])


def unfinished(dice):
    """The last section unfinished, and the first of the next version: it stays as if it had not come."""
    lives = [(3, 0)] * 4
    for name in ORDER:
        section = marked(dice, name, 4, 0, 0)
        for size in (1, 2, 3, 4, 7, 8, len(section) // 2, len(section) - 4, len(section) - 1):
            whole = marked_plant(dice, 3) + [section[:size]]
            yield one_run('unfinished', '%s, %d bytes' % (name, size), MAP, whole,
                          claim_marked(MAP, 5, 1, lives))


def with_zero_crc(section):
    """The section with one descriptor more, whose body makes the four bytes of the CRC zero."""
    rest = section[3:-4] + bytes([0x40, 4])
    length = len(rest) + 8
    front = bytes([section[0], section[1] & 0xF0 | length >> 8, length & 0xFF]) + rest
    # A CRC behind what it is made of leaves 0, and so 0 is the CRC of all that.
    return close(close(front))


def unfinished_zeros(dice):
    """What is missing would be zeros: no bytes may be made up for it."""
    for name, missing in itertools.product(ORDER, range(5)):
        section = with_zero_crc(marked(dice, name, 4, 0, 0))
        lives = [(4, 0) if each == name and not missing else (3, 0) for each in ORDER]
        yield one_run('unfinished', '%s, %d zero bytes missing' % (name, missing), MAP,
                      marked_plant(dice, 3, ONCE) + [section[:len(section) - missing]],
                      claim_marked(MAP, 6, 1 if missing else 0, lives))


def unfinished_again(dice):
    """A section and then its beginning: the rest may not be taken from what came before."""
    for name in ORDER:
        plant = marked_plant(dice, 3, ONCE)
        section = plant.pop(ORDER.index(name))
        for size in (1, 2, 3, 8, len(section) // 2, len(section) - 4, len(section) - 1):
            yield one_run('unfinished', '%s, %d bytes of the one before' % (name, size), MAP,
                          plant + [section, section[:size]], claim_marked(MAP, 6, 1, [(3, 0)] * 5))


DIRECTED = (tiny, cut_anywhere, lengths, wrong_length, scripts, orders, interleaved, never_complete, replaced,
            every_version, first_held, other_maps, reading_clauses, single_sections, unfinished,
            unfinished_zeros, unfinished_again, lookups, full_plants, standard_plants, grown, single_bits)
