"""Mofrindi: what the command lines of this folder share: a wrong argument is told in one line."""

import argparse


class Parser(argparse.ArgumentParser):
    """Says what is wrong with an argument in one line."""

    def error(self, message):
        self.exit(2, '%s: %s (see --help)\n' % (self.prog, message))


def number_from(least):
    def number(text):
        if not text.isdigit() or int(text) < least:
            raise argparse.ArgumentTypeError('%r is no number of at least %d' % (text, least))
        return int(text)
    return number
