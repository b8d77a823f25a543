"""Mofrindi: what comparing a program with this one over a batch of trials has in common, whatever is asked.

A comparison says its answers in words; the words that a batch must reach are listed in `wanted`.
"""

from collections import Counter

from compare.compare_section import SHOWN


def print_histogram(batch, answers, said, wanted):
    """How many of each answer, and of each family of trials with its answers."""
    reached, families, sizes = Counter(), {}, Counter()
    for trial, found in zip(batch, answers):
        words = [said(answer) for answer in found]
        reached.update(words)
        families.setdefault(trial.family, Counter()).update(words)
        sizes[trial.family] += 1
    print('answers:')
    for words in wanted:
        print('  %-21s %6d' % (words, reached[words]))
    print('families:')
    for family, counts in families.items():
        shown = ', '.join('%s: %d' % (words, counts[words]) for words in wanted if counts[words])
        print('  %-24s %5d   %s' % (family, sizes[family], shown))
    return reached


def print_differences(different, first_difference):
    for number, trial, right, got in different[:SHOWN]:
        print('difference: trial %d (%s: %s), store of %d bytes, seed %d'
              % (number, trial.family, trial.name, trial.length, trial.seed))
        for line in first_difference(trial, right, got):
            print('  ' + line)
    for family, count in Counter(trial.family for _, trial, _, _ in different).items():
        print('trials that differ in %s: %d' % (family, count))


def report(batch, right, got, unmet, first_difference):
    """Prints what is unmet and what differs; the numbers of trials that differ and of all that went wrong."""
    for line in unmet[:SHOWN]:
        print(line)
    different = [each for each in zip(range(len(batch)), batch, right, got) if each[2] != each[3]]
    print_differences(different, first_difference)
    return len(different), len(unmet) + len(different)
