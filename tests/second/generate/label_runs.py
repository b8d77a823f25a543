"""Mofrindi: directed runs for `labels`, and for `lineup` where names come and go.

Wherever the output follows by hand from request 2026-01 it is claimed, whole where possible.
"""

import itertools

from generate.directed_runs import LISTED, as_answer, listed_section, plant_sections, run_of_trial
from generate.label_trials import counts_and_halves, first_match, first_record, flags, numbers, texts
from generate.pieces import NUMBERS, reseal, revision, seal
from generate.plants import FIVE, STANDARD, padded, standard, standard_label
from generate.run_parts import (LABELS, MAP, ONCE, Run, both_texts, claim_labels, claim_whole, labels_output,
                                labels_run, marked, marked_plant, marked_table, mixed)
from generate.texts import OTHER_LANGUAGES, WRONG, another_language, wrong_text
from generate.trials import shuffled
from program.receiver import MOST_LAST, ORDER, PLACE_BYTES
from program.section import NTT

VERSION = 5             # of the plant that the names of these runs are for


def tiny(dice):
    """Fewer than two bytes, and a map number alone."""
    for data in [b''] + [bytes([byte]) for byte in (0, 0x12, 0xC3, 0xFF)]:
        yield Run('labels: tiny', '%d bytes' % len(data), data, None, claim_whole(b'labels=refused\n'), LABELS)
    for number in (0, 1, 0x1234, 0xFFFF, 0xC300):
        yield labels_run('labels: tiny', 'map %d alone' % number, number, [],
                         claim_whole(labels_output(number, 'none', [])))


# ------------------------------------------------------------------ names come and go

def versions(dice):
    """Names that go live before, among and behind the other tables, in one to four sections, and again later."""
    for last, others in itertools.product(range(MOST_LAST + 1), (0, 3)):
        plant = marked_plant(dice, VERSION, (others,) * 4)
        names = shuffled(dice, marked_table(dice, NTT, VERSION, last))
        lives = [(VERSION, others)] * 4 + [(VERSION, last)]
        for said, sections in (('before', names + plant), ('behind', plant + names),
                               ('among', mixed(dice, [plant, names])),
                               ('twice', mixed(dice, [names, plant, names]))):
            yield from both_texts('names', '%s, last %d and %d' % (said, last, others), MAP, sections, 0, lives)
        later = plant + names + marked_table(dice, NTT, 9, 1)
        yield from both_texts('names', 'of another version, last %d' % last, MAP, later, 0, lives[:4] + [(9, 1)])
        begun = plant + names + marked_table(dice, NTT, 9, 1)[:1]
        yield from both_texts('names', 'another version begun, last %d' % last, MAP, begun, 0, lives)
        if last:
            yield from both_texts('names', 'only gathered, last %d' % last, MAP, plant + names[1:], 0,
                                  lives[:4] + [None])


def not_tuned(dice):
    """Names without the other tables: nothing is listed."""
    for name in ORDER[:4]:
        sections = [each for other in ORDER if other != name for each in marked_table(dice, other, VERSION, 1)]
        lives = [None if other == name else (VERSION, 1) for other in ORDER]
        yield from both_texts('names', 'without ' + name, MAP, sections, 0, lives)


def languages(dice):
    """Names of other languages beside ours, or alone; a whole table of them goes past."""
    for language in OTHER_LANGUAGES + tuple(another_language(dice, b'eng') for _ in range(8)):
        plant = marked_plant(dice, VERSION)
        foreign = [marked(dice, NTT, 9, number, 1, language=language) for number in (0, 1)]
        ours = marked_table(dice, NTT, VERSION, 1)
        lives = [(VERSION, 0)] * 4
        yield from both_texts('names: language', language.hex() + ' alone', MAP, mixed(dice, [plant, foreign]), 0,
                              lives + [None])
        yield from both_texts('names: language', language.hex() + ' beside ours', MAP,
                              mixed(dice, [plant, foreign, ours]), 0, lives + [(VERSION, 1)])


def refused_names(dice):
    """Wrong text and other faults in a section of names: the older version stays, or none is live."""
    for how, older in itertools.product(sorted(WRONG), (False, True)):
        name = wrong_text(dice, how)
        wrong = seal(0xC3, b'\x00eng\x06\x01\x00\x00\x00' + bytes([len(name)]) + name + b'\x00' + revision(9, 0, 0))
        sections = marked_plant(dice, VERSION, ONCE if older else ONCE[:4]) + [wrong]
        lives = [(VERSION, 0)] * 4 + [(VERSION, 0) if older else None]
        yield from both_texts('names: refused', how, MAP, sections, 1, lives)
    right = marked(dice, NTT, 9, 0, 0)
    for said, wrong in (('CRC', right[:-1] + bytes([right[-1] ^ 1])),
                        ('subtype', reseal(right[:7] + b'\x07' + right[8:])),
                        ('last above 3', marked(dice, NTT, 9, 0, 4)),
                        ('other last', marked(dice, NTT, VERSION, 0, 1)),
                        ('1,025 bytes', padded(right, PLACE_BYTES + 1)), ('unfinished', right[:-1])):
        yield from both_texts('names: refused', said, MAP, marked_plant(dice, VERSION, ONCE) + [wrong], 1,
                              [(VERSION, 0)] * 5)


# ------------------------------------------------------------------ whole plants

SEARCHES = (counts_and_halves, first_match, flags, numbers, first_record, texts)


def searches(dice):
    """The directed trials of the search for a name as runs; the claims stay."""
    for make_trials in SEARCHES:
        for trial in make_trials(dice):
            run = run_of_trial(dice, trial)
            yield run._replace(family='labels: ' + trial.family, text=LABELS,
                               claims=claim_labels(zip(trial.labelled, trial.label_claims)))


def standard_plants(dice):
    """The standard plant with every one of its names claimed, in many orders."""
    answers = [(number, as_answer(standard_label(number))) for number in STANDARD]
    for turn in range(12):
        sections = plant_sections(dice, standard(FIVE), turn)
        lists = [shuffled(dice, sections[name]) for name in sections]
        yield labels_run('labels: standard plant', 'order %d' % turn, MAP, mixed(dice, lists), claim_labels(answers))


def single_bytes(dice):
    """A small plant with each byte of its names changed in two ways, the CRC put right."""
    others = [listed_section(dice, name) for name in ORDER if name != NTT]
    rest = bytes.fromhex(LISTED[NTT]) + revision(5, 0, 0)
    for at, value in itertools.product(range(len(rest)), (1 << dice.below(8), dice.between(1, 255))):
        changed = rest[:at] + bytes([rest[at] ^ value]) + rest[at + 1:]
        yield labels_run('labels: single bytes', 'byte %d' % (at + 3), MAP, others + [seal(NUMBERS[NTT], changed)])


LABEL_RUNS = (tiny, versions, not_tuned, languages, refused_names, searches, standard_plants, single_bytes)
