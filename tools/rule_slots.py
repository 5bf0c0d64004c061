#!/usr/bin/env python3
"""Prints the table of crates/lint_base/src/rule_slots.rt, in which each rule's printed name has a slot of its own.

    tools/rule_slots.py            the table, for the weights that stand below
    tools/rule_slots.py --check    says whether the sources have this table and these weights
    tools/rule_slots.py --search   other bytes and weights that keep the names apart, for when a rule is added
"""
import argparse
import itertools
import random
import re
import sys
from pathlib import Path

SOURCES = Path(__file__).resolve().parent.parent / "crates/lint_base/src"
SLOTS = 256
NAMELESS = "unused-ignore"
PLACES = {
    **{f"text[{i}]": lambda name, i=i: name[i] for i in range(10)},
    **{f"text[len - {i}]": lambda name, i=i: name[len(name) - i] for i in range(1, 11)},
    "text[len / 2]": lambda name: name[len(name) // 2],
}
WEIGHTS = {"text[8]": 27, "text[9]": 105, "text[len - 7]": 22, "text[len / 2]": 82}


def slot(name, weights):
    return sum(weight * PLACES[place](name) for place, weight in weights.items()) % SLOTS


def are_apart(names, weights):
    return len({slot(name, weights) for name in names}) == len(names)


def other_weights(names):
    """Weights of four other places that keep the names apart, found by trying."""
    telling = [places for places in itertools.combinations(PLACES, 4)
               if len({tuple(PLACES[place](name) for place in places) for name in names}) == len(names)]
    while True:
        weights = {place: random.randint(1, 127) for place in random.choice(telling)}
        if are_apart(names, weights):
            return weights


def printed_names():
    """The printed name of each rule, in declaration order."""
    table = re.search(r"^static FACTS\b.*?^\];", (SOURCES / "rule.rt").read_text(), re.M | re.S)
    return [name.encode() for name in re.findall(r'\(\s*"([^"]+)"', table[0])]


def numbers(names):
    """The table: for each slot the number of the rule whose name falls into it, or that of the rule that no text names."""
    nameless = names.index(NAMELESS.encode())
    table = [nameless] * SLOTS
    for number, name in enumerate(names):
        if number != nameless:
            table[slot(name, WEIGHTS)] = number
    return table


def in_sources():
    """The table that stands in the sources, and the weights."""
    text = (SOURCES / "rule_slots.rt").read_text()
    table = re.search(r"^static NUMBERS\b[^=]*= \[(.*?)\];", text, re.M | re.S)
    weights = re.findall(r"(\d+) \* (text\[[^]]+\]) as usize", text)
    return [int(number) for number in re.findall(r"\d+", table[1])], {place: int(weight) for weight, place in weights}


def main():
    asks = argparse.ArgumentParser(description=__doc__, formatter_class=argparse.RawDescriptionHelpFormatter)
    asks.add_argument("--search", action="store_true")
    asks.add_argument("--check", action="store_true")
    given = asks.parse_args()
    names = printed_names()
    named = [name for name in names if name != NAMELESS.encode()]
    if given.search:
        print(other_weights(named))
        return
    if not are_apart(named, WEIGHTS):
        sys.exit("two names share a slot: --search finds other weights")
    table = numbers(names)
    if given.check:
        if in_sources() != (table, WEIGHTS):
            sys.exit("the table of rule_slots.rt is not that of tools/rule_slots.py")
        return
    for start in range(0, SLOTS, 20):
        print("    " + ", ".join(map(str, table[start:start + 20])) + ",")


if __name__ == "__main__":
    main()
