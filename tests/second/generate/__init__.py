"""Mofrindi: what the comparisons ask, drawn from a seed or written by hand: sections, trials and runs.

sections.py         sections for the readers, of drafts.py, sweeps.py and the named clauses
trials.py           trials for the receivers: a state, a store and sections
tuning_trials.py    trials for the tuners and labels, with those of check_trials.py, lookup_trials.py and
                    label_trials.py, on plants.py
runs.py             whole inputs for the line-ups and labels, with those of directed_runs.py, field_runs.py,
                    long_runs.py and label_runs.py
texts.py            names, right and wrong, and languages
growth.py           growth of sections and runs that are there already
captures.py         the files of tests/captures, a program
pieces.py           the dice, and the bytes that all of them are made of
"""
