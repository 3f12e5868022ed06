"""Answers that are asked for again and again: what a function told is remembered, as of the object that several commands read."""

from functools import lru_cache, wraps

from texts import Refused

# Of how many calls the answers are remembered: what is asked of an object is asked before the next ones come.
MOST = 8


def remembered(make):
    """The function, which tells at once what it told the last times of the same arguments, be it a refusal. Nobody changes its
    answers."""

    @lru_cache(maxsize=MOST)
    def outcome(*words):
        try:
            return make(*words), None
        except Refused as refused:
            return None, str(refused)

    @wraps(make)
    def answer(*words):
        made, refusal = outcome(*words)
        if refusal is not None:
            raise Refused(refusal)
        return made

    return answer
