"""Mofrindi: the comparisons of a program with the second one, each a program.

compare_section.py      the readers' answers on sections, and what all comparisons share
compare_receiver.py     the receivers, over trials
compare_tuner.py        the tuners and their labels, over trials
compare_lineup.py       the line-ups and the texts of labels, over runs

The folders tests/second, receiver, tuner and lineup of tests/ have the scripts that build the other side and run them.
"""
