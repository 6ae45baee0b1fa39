#!/usr/bin/env python3
"""What exchanges of moves answer, worked out without the program: it runs the lowest program by docs/LANGUAGE.md ("What it means").

Usage: exchanges.py TEXT STORE THREADS [CHOSEN]
  TEXT      a file with a program that keeps the static rules and has no choices
  STORE     a number, or `true` or `false`, for each global, with `,` between
  THREADS   the thread of each move, with `,` between
  CHOSEN    places of moves that are brought to the front together, with `,` between; without it, those of each two neighbours

The first line has what the exchange of each two neighbours answers, in their order: `same` where the exchanged moves run to the
same configuration; else `fails:` and the number of the moves that are left, where these run to a failing one; else `other:` and the
place. The second line has the same of bringing moves to the front.
"""
import sys

from oracle.plain import MOVED, Move, Plain
from oracle.reading import Reader
from oracle.values import Word


def end(plain, config, moves):
    """The configuration to which the moves of these threads run, or None where one isn't made."""
    for thread in moves:
        made = plain.move(config, Move(thread, []))
        if made.answer != MOVED:
            return None
        config = made.config
    return config


def exchanged(plain, config, moves, place):
    """What the exchange answers, and the exchanged moves."""
    turned = [*moves[:place], moves[place + 1], moves[place], *moves[place + 2:]]
    first, second = end(plain, config, moves), end(plain, config, turned)
    if first is not None and first == second:
        return "same", turned
    for shorter in (moves[:place], turned[:place + 1]):
        reached = end(plain, config, shorter)
        if reached is not None and plain.failing(reached) is not None:
            return f"fails:{len(shorter)}", shorter
    return f"other:{place}", None


def to_front(plain, config, moves, chosen):
    """What bringing the moves at these rising places to the front answers, and the moves."""
    for target, at in enumerate(chosen):
        for place in reversed(range(target, at)):
            answer, moves = exchanged(plain, config, moves, place)
            if answer != "same":
                return answer, moves
    return "same", moves


def value_of(sort, text):
    return text == "true" if sort.kind == "bool" else Word(int(text), sort.width)


def main(words):
    if len(words) not in (3, 4):
        print(__doc__)
        return 2
    with open(words[0], encoding="utf-8") as file:
        program = Reader(file.read()).program()
    plain = Plain(program)
    config = plain.start({g.name: value_of(g.sort, text) for g, text in zip(program.globals, words[1].split(","))})
    moves = [int(thread) for thread in words[2].split(",")]
    places = range(len(moves) - 1)
    chosen = [[int(place) for place in words[3].split(",")]] if len(words) == 4 else [[place, place + 1] for place in places]
    print(*(exchanged(plain, config, moves, place)[0] for place in places))
    print(*(to_front(plain, config, moves, those)[0] for those in chosen))
    return 0


if __name__ == "__main__":
    sys.exit(main(sys.argv[1:]))
