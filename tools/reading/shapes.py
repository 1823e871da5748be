"""shapes.py FOLDER EXPONENT..

Writes automata of hostile shapes, each with about 2^EXPONENT elements, to files in FOLDER. The name
of a file gives its unit, bytes or characters, its shape and its exponent. All automata are valid,
so that a checked read has to look at all of each. A file of words with about 2^EXPONENT prefixes is
written besides, for an automaton with nothing hostile in it.
"""

import random
import sys
from array import array

DEAD = 1
LETTER = 0x61
# Over characters, code k is that of the code point FIRST + k, which takes four bytes.
FIRST = 0x10000
NONE = 0xFFFFFFFF


def words(numbers):
    packed = array("I", numbers)
    assert packed.itemsize == 4
    if sys.byteorder != "little":
        packed.byteswap()
    return packed.tobytes()


def ending(outputs, num_states):
    """The outputs, each a value, a length and a parent; the standard kind; and no prefilter."""
    flat = [number for output in outputs for number in output]
    return words([len(outputs)] + flat) + bytes([0]) + words([num_states]) + bytes([0])


def over_bytes(elements, outputs, num_states):
    """Elements are base, link and packed word."""
    flat = [number for element in elements for number in element]
    return words([len(elements)] + flat + [0, 0]) + ending(outputs, num_states)


def over_characters(elements, alphabet, outputs, num_states):
    """Elements are base, check, link and output position."""
    flat = [number for element in elements for number in element]
    table = [NONE] * FIRST + list(range(alphabet))
    return words([len(elements)] + flat) + words([len(table)] + table + [alphabet]) + ending(outputs, num_states)


def chain_of_bytes(exponent):
    """One long pattern of one letter."""
    count = 1 << exponent
    # The element at LETTER would need a base of 0, and the last block keeps an unused base.
    states = [0] + [element for element in range(2, count - 256) if element != LETTER]
    elements = [[0, 0, 0] for _ in range(count)]
    used = set()
    for parent, child in zip(states, states[1:]):
        elements[parent][0] = child ^ LETTER
        used.add(child ^ LETTER)
        elements[child][1] = parent
        elements[child][2] = LETTER
    elements[states[-1]][2] |= 1 << 8
    members = set(states)
    for element in range(count):
        if element not in members:
            first = element & ~255
            unused = next(base for base in range(first, first + 256) if base not in used)
            elements[element][2] = element ^ unused
    return over_bytes(elements, [(0, len(states) - 1, 0)], len(states))


def blocks(count, block):
    """A root, and so many blocks of vacant elements after it."""
    elements = [[0, DEAD, DEAD, 0] for _ in range(count * block)]
    elements[0] = [0, DEAD, 0, 0]
    return elements


def chain_of_characters(exponent):
    """One long pattern of one character."""
    count = 1 << exponent
    elements = blocks(count // 2, 2)
    states = [0] + list(range(2, count))
    for parent, child in zip(states, states[1:]):
        elements[parent][0] = child
        elements[child][1] = parent
        elements[child][2] = parent
    elements[states[-1]][3] = 1
    return over_characters(elements, 1, [(0, 4 * (len(states) - 1), 0)], len(states))


def chain_with_fan(exponent):
    """A chain whose end has as many children: following links for each would be quadratic."""
    block = 1 << (exponent - 1)
    elements = blocks(2, block)
    states = [0] + list(range(2, block))
    for parent, child in zip(states, states[1:]):
        elements[parent][0] = child
        elements[child][1] = parent
        elements[child][2] = parent
    depth = len(states) - 1
    end = states[-1]
    elements[end][0] = block
    # The child by code 0 continues the chain's character, and its failure link is the end.
    elements[block] = [0, end, end, 1]
    for code in range(1, block):
        elements[block + code] = [0, end, 0, 1]
    return over_characters(elements, block, [(0, 4 * (depth + 1), 0)], len(states) + block)


def fan(exponent, run):
    """A root with a child by each code. All share so many outputs of one length."""
    block = 1 << (exponent - 1)
    elements = blocks(2, block)
    elements[0][0] = block
    for code in range(block):
        elements[block + code] = [0, 0, 0, run]
    outputs = [(number, 4, number) for number in range(run)]
    return over_characters(elements, block, outputs, block + 1)


def one_link(exponent):
    """Many elements whose failure links all lead to one."""
    block = 1 << (exponent - 2)
    elements = blocks(3, block)
    elements[0][0] = block
    elements[block] = [0, 0, 0, 1]
    for code in range(1, block):
        elements[block + code] = [2 * block + code, 0, 0, 0]
        elements[2 * block + code] = [0, block + code, block, 2]
    return over_characters(elements, block, [(0, 4, 0), (1, 8, 1)], 2 * block)


def words_of(exponent):
    """Words with about 2^exponent prefixes."""
    source = random.Random(exponent)
    letters = "abcdefghijklmnopqrstuvwxyz"
    count = (1 << exponent) // 12
    return "\n".join("".join(source.choices(letters, k=source.randrange(8, 25))) for _ in range(count)).encode()


SHAPES = {
    "bytes_chain": chain_of_bytes,
    "chars_chain": chain_of_characters,
    "chars_chain_with_fan": chain_with_fan,
    "chars_one_block": lambda exponent: fan(exponent, 1),
    "chars_shared_run": lambda exponent: fan(exponent, 1 << exponent),
    "chars_one_link": one_link,
    "words": words_of,
}


def main():
    folder = sys.argv[1]
    for exponent in map(int, sys.argv[2:]):
        for name, shape in SHAPES.items():
            with open(f"{folder}/{name}_{exponent}", "wb") as out:
                out.write(shape(exponent))


main()
