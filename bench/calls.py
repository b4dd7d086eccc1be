#!/usr/bin/env python3
"""Tells of the calls of functions in a run under callgrind, by its file of counts.

    calls.py cost FILE NAME..   the instructions of all calls of functions whose symbol contains a NAME, with all that
                                they call; of one that calls itself the outermost calls alone
    calls.py count FILE NAME    of those whose symbol contains NAME: how often each was called, and the symbol
"""
import re
import sys

# `fn=(12) name` and `cfn=(12) name` name a function the first time, and then by the number alone.
FUNCTION = re.compile(r"(c?)fn=\((\d+)\)(?: (.*))?")


def calls(path):
    """Gives the caller, the called, the count and the cost of each entry of the file that is a call."""
    names, caller, called, count = {}, None, None, None
    with open(path) as lines:
        for line in lines:
            found = FUNCTION.match(line)
            if found:
                kind, number, name = found.groups()
                if name:
                    names[number] = name
                if kind:
                    called = number
                else:
                    caller = number
            elif line.startswith("calls="):
                count = int(line[6:].split()[0])
            elif count is not None:
                # the line after `calls=`: where the call stands, and what it costs
                yield names[caller], names[called], count, int(line.split()[1])
                count = None


def cost(path, *wanted):
    def is_wanted(symbol):
        return any(name in symbol for name in wanted)

    print(sum(spent for caller, called, _, spent in calls(path) if is_wanted(called) and not is_wanted(caller)))


def count(path, wanted):
    counts = {}
    for _, called, number, _ in calls(path):
        if wanted in called:
            counts[called] = counts.get(called, 0) + number
    for symbol, number in sorted(counts.items(), key=lambda pair: -pair[1]):
        print("%d %s" % (number, symbol))


def main():
    words = sys.argv[1:]
    if len(words) > 2 and words[0] == "cost":
        cost(*words[1:])
    elif len(words) == 3 and words[0] == "count":
        count(*words[1:])
    else:
        sys.exit(__doc__)


main()
