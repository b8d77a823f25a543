"""Mofrindi: the second program held to inputs and answers that were written by hand from document 01.

What the generators and the comparisons must give is tried here too.  Each file is a program that prints one line;
its exit status is 1 where something is wrong.
"""
