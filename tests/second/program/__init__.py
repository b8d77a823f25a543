"""Mofrindi: the second program, written from the documents alone: reader, receiver, tuner, labels and line-up.

section.py      one section: refusals 3 to 11, and what it says
text.py         the text rule for names, document 003's section 7.1
receiver.py     holding and going live: refusals 1, 2, 12 and 13
tuning.py       from number to tuner: refusals 1, 2 and 14 to 21
label.py        the name of a channel: refusals 1, 2 and 14 to 18
lineup.py       the printed line-up, a program: python3 tests/second/program/lineup.py < CAPTURE
labels.py       the printed names, a program as well

It imports nothing but itself and Python's own library.
"""
