"""Mofrindi: compares a program's answers on sections with section.py's.

compare_section.py PROGRAM [--seed N] [--count N] [--parse]

PROGRAM gets all sections on its standard input, each as a 4-byte little-endian
length and then its bytes, and writes one byte for each section: 0 if it reads
right, else the number of the refusal (document 01, "The C side").
"""

import os
import subprocess
import sys
from collections import Counter, namedtuple

sys.dont_write_bytecode = True
sys.path.insert(0, os.path.dirname(os.path.dirname(os.path.abspath(__file__))))

from arguments import Parser, number_from
from generate import sections
from program import section as reading

COUNT = 30000           # sections in total, at least
TIMES = 4               # sections for each clause
SHOWN = 10              # differences printed
PATIENCE = 300          # seconds that PROGRAM may take
WANTED = (0,) + tuple(range(3, 12))

# One way of asking: the bytes that PROGRAM gets for an item, the size of one
# answer, the answer section.py gives, and how an answer is printed.  Another
# question, such as that for a descriptor, is another value of this kind.
Question = namedtuple('Question', 'request size answer show')


def framed(item):
    return len(item.section).to_bytes(4, 'little') + item.section


READS_RIGHT = Question(request=framed, size=1,
                       answer=lambda item: bytes([reading.check(item.section)]),
                       show=lambda answer: str(answer[0]))


class Failure(Exception):
    """Ends the comparison with one clear line."""


def written(program, requests):
    """All that the program writes when it gets these bytes."""
    if os.path.exists(program):
        program = os.path.abspath(program)
    try:
        done = subprocess.run([program], input=requests, stdout=subprocess.PIPE,
                              stderr=subprocess.PIPE, timeout=PATIENCE)
    except OSError as error:
        raise Failure('the program cannot be started: %s' % error.strerror)
    except subprocess.TimeoutExpired:
        raise Failure('the program took more than %d seconds' % PATIENCE)
    if done.returncode != 0:
        said = done.stderr.decode('utf-8', 'replace').strip().splitlines()
        raise Failure('the program exits with %d%s'
                      % (done.returncode, ': ' + said[-1] if said else ''))
    return done.stdout


def ask(program, items, question):
    """All answers of the program, one for each item."""
    got = written(program, b''.join(question.request(item) for item in items))
    size = question.size
    if len(got) != size * len(items):
        raise Failure('the program answers with %d bytes, not %d'
                      % (len(got), size * len(items)))
    return [got[at:at + size] for at in range(0, len(got), size)]


def print_histogram(items, expected):
    """How many of each answer, and of each family with its answers."""
    answers = Counter(expected)
    print('answers:')
    for number in sorted(answers):
        print('  %3d  %6d' % (number, answers[number]))
    families = {}
    for item, number in zip(items, expected):
        families.setdefault(item.family, Counter())[number] += 1
    print('families:')
    for family, counts in families.items():
        shown = ' '.join('%d:%d' % each for each in sorted(counts.items()))
        print('  %-42s %6d   %s' % (family, sum(counts.values()), shown))


def unmet(items, expected):
    """Lines on answers and clauses that the batch should reach and doesn't."""
    lines = ['no section has the answer %d' % number
             for number in WANTED if number not in expected]
    reached = set()
    for item, number in zip(items, expected):
        if item.claim is None:
            continue
        if number == item.claim:
            reached.add(item.detail)
        else:
            lines.append('%s (%s) claims %d, section.py answers %d: %s'
                         % (item.detail, item.family, item.claim, number,
                            item.section.hex()))
    for clause in sections.CLAUSES:
        name = '%d: %s' % (clause.answer, clause.name)
        if name not in reached:
            lines.append('clause not reached: %s' % name)
    return lines


def differences(items, wanted, got):
    """(item, right answer, the program's answer) where the two differ."""
    return [each for each in zip(items, wanted, got) if each[1] != each[2]]


def print_differences(different, question):
    for item, right, answer in different[:SHOWN]:
        print('difference: %s, %s: %s: the program answers %s, section.py %s'
              % (item.family, item.detail, item.section.hex() or 'no bytes',
                 question.show(answer), question.show(right)))
    families = Counter(item.family for item, _, _ in different)
    for family, count in families.items():
        print('differences in %s: %d' % (family, count))


def compare(program, seed, count):
    """The number of things that went wrong; prints what and where."""
    question = READS_RIGHT
    items = sections.batch(seed, count, TIMES)
    got = ask(program, items, question)
    wanted = [question.answer(item) for item in items]
    expected = [answer[0] for answer in wanted]
    print_histogram(items, expected)
    lines = unmet(items, expected)
    for line in lines[:SHOWN]:
        print(line)
    different = differences(items, wanted, got)
    print_differences(different, question)
    print('seed %d: %d sections, %d clauses, %d differences, %d claims not met'
          % (seed, len(items), len(sections.CLAUSES), len(different), len(lines)))
    return len(lines) + len(different)


def command(compare, count, about, count_help):
    """Runs a comparison with the arguments of the command line; answers its exit status."""
    parser = Parser(description=about,
                    epilog='Exit: 0 all equal, 1 a difference or a failure, 2 a bad argument.')
    parser.add_argument('program', metavar='PROGRAM', help='the program to run')
    parser.add_argument('--seed', metavar='N', type=number_from(0), default=1,
                        help='seed of what is generated (default 1)')
    parser.add_argument('--count', metavar='N', type=number_from(1), default=count,
                        help='%s (default %d)' % (count_help, count))
    parser.add_argument('--parse', action='store_true',
                        help='only say whether the arguments are right')
    given = parser.parse_args()
    if given.parse:
        return 0
    try:
        return 1 if compare(given.program, given.seed, given.count) else 0
    except Failure as failure:
        print('%s: %s' % (parser.prog, failure))
        return 1


if __name__ == '__main__':
    sys.exit(command(compare, COUNT,
                     'Compare the answers of a program that reads sections with those of section.py, '
                     'over a batch of generated sections. The program gets each section as a 4-byte '
                     'little-endian length and the bytes, and writes one byte for each: 0 or the number '
                     'of the refusal.',
                     'sections in total, at least; the sweeps and clauses are always all there, and a '
                     'third of N random ones'))
