"""What is wrong with a case itself, not with the program that it tries."""


class CaseFault(Exception):
    """A file of a case that can't be read as the README of the cases says, or a tool that is missing."""
