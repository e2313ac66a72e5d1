"""The lines of the test programs: reading them, and printing what is told.

Follows docs/TESTING.md, "The form of a line" and "What is printed". Reading is strict: whatever
that form does not allow raises Unreadable.
"""

import math
import re
import struct

LINE = 65535
ELEMENTS = 65538
LARGEST = 2**64 - 1
NAN = struct.unpack(">d", bytes.fromhex("7ff8000000000000"))[0]

DECIMAL = re.compile(r"[0-9]+\Z")
HEXADECIMAL = re.compile(r"0x[0-9a-fA-F]{1,16}\Z")
FLOAT_BITS = re.compile(r"0x[0-9a-fA-F]{16}\Z")


class Unreadable(Exception):
    """A line that cannot be read."""


# Floats and their bits.

def float_of(bits):
    """The f64 with these 64 bits."""
    return struct.unpack(">d", struct.pack(">Q", bits))[0]


def bits_of(value):
    """The 64 bits of an f64 as a whole number. A NaN has the bits of NaN above, whatever it is."""
    if math.isnan(value):
        value = NAN
    return struct.unpack(">Q", struct.pack(">d", value))[0]


# Fields and single values.

def fields_of(line):
    """NAME, CALL and the arguments of a line; None for a remark."""
    if len(line) > LINE:
        raise Unreadable("a line that is too long")
    if line == "" or line.startswith("#"):
        return None
    fields = [field.strip(" ") for field in line.split("|")]
    if fields[0] == "":
        raise Unreadable("the name is empty")
    if len(fields) < 2:
        raise Unreadable("no call")
    return fields[0], fields[1], fields[2:]


def decimal(text):
    """A decimal whole number from 0 to the largest usize."""
    if not DECIMAL.match(text):
        raise Unreadable("not a decimal number: " + text[:40])
    digits = text.lstrip("0") or "0"
    if len(digits) > 20 or int(digits) > LARGEST:
        raise Unreadable("over the largest number: " + text[:40])
    return int(digits)


def number(text):
    """A number: decimal, or hexadecimal with 1 to 16 digits."""
    if HEXADECIMAL.match(text):
        return int(text[2:], 16)
    return decimal(text)


def real(text):
    """A float: a decimal whole number, the same after a minus sign, its bits, or NaN."""
    if text == "NaN":
        return NAN
    if FLOAT_BITS.match(text):
        value = float_of(int(text[2:], 16))
        if math.isnan(value):
            raise Unreadable("the bits of a NaN: " + text)
        return value
    if text.startswith("-"):
        return -float(decimal(text[1:]))
    # The conversion of a whole number is to the nearest f64, ties to even.
    return float(decimal(text))


# Lists.

def stepped_number(first, index, step):
    return (first + index * step) % 2**64


def stepped_real(first, index, step):
    return first + float(index) * step if index else first


def split_items(text):
    """The items of a list: spaces between them, but for the spaces in brackets."""
    items = []
    item = ""
    inside = False
    for character in text:
        if character == " " and not inside:
            if item != "":
                items.append(item)
            item = ""
            continue
        if character == "(":
            if inside:
                raise Unreadable("brackets in brackets")
            inside = True
        if character == ")":
            if not inside:
                raise Unreadable("a bracket that nothing opened")
            inside = False
        item += character
    if inside:
        raise Unreadable("a bracket that is not closed")
    if item != "":
        items.append(item)
    return items


def elements_of(text, single, stepped, in_brackets):
    """The elements of a list whose elements `single` reads and `stepped` steps."""
    elements = []
    for item in split_items(text):
        if item.startswith("@"):
            if in_brackets:
                raise Unreadable("a put in brackets")
            place_text, sign, value_text = item[1:].partition("=")
            if sign == "":
                raise Unreadable("a put without a value: " + item[:40])
            place = number(place_text)
            value = single(value_text)
            if place >= len(elements):
                raise Unreadable("a put at no place: " + item[:40])
            elements[place] = value
            continue
        times_text, star, what = item.partition("*")
        if star == "":
            added, times = [single(item)], 1
        elif what.startswith("("):
            if not what.endswith(")") or in_brackets:
                raise Unreadable("not an item: " + item[:40])
            times = number(times_text)
            added = elements_of(what[1:-1], single, stepped, True)
        else:
            times = number(times_text)
            first_text, plus, step_text = what.partition("+")
            first = single(first_text)
            if plus == "":
                added = [first]
            else:
                step = single(step_text)
                if times > ELEMENTS:
                    raise Unreadable("a list that is too long")
                added, times = [stepped(first, i, step) for i in range(times)], 1
        if len(elements) + len(added) * times > ELEMENTS:
            raise Unreadable("a list that is too long")
        if added:
            elements += added * times
    return elements


def numbers(text):
    """A list of numbers."""
    return elements_of(text, number, stepped_number, False)


def reals(text):
    """A list of floats."""
    return elements_of(text, real, stepped_real, False)


def numbers_below(limit):
    """The reader of a list of numbers that are all below the limit."""
    def read(text):
        elements = numbers(text)
        for element in elements:
            if element >= limit:
                raise Unreadable("a number not below %d: %d" % (limit, element))
        return elements
    return read


def bytes_of(text):
    """A list of bytes: of each number the remainder by 256."""
    return [element % 256 for element in numbers(text)]


def exactly(length, read):
    """The reader of a list of exactly so many elements."""
    def read_exactly(text):
        elements = read(text)
        if len(elements) != length:
            raise Unreadable("%d elements instead of %d" % (len(elements), length))
        return elements
    return read_exactly


def at_most(length, read):
    """The reader of a list of no more than so many elements."""
    def read_at_most(text):
        elements = read(text)
        if len(elements) > length:
            raise Unreadable("%d elements, over %d" % (len(elements), length))
        return elements
    return read_at_most


def finite_reals(text):
    """A list of floats that are all finite."""
    elements = reals(text)
    for element in elements:
        if not math.isfinite(element):
            raise Unreadable("a float that is not finite")
    return elements


# Printing.

def print_number(value):
    return str(value)


def print_real(value):
    """A float as it is printed."""
    if math.isnan(value):
        return "NaN"
    bits = bits_of(value)
    sign = "-" if bits >= 2**63 else ""
    magnitude = float_of(bits % 2**63)
    if math.isinf(magnitude):
        return sign + "infinity"
    if magnitude < 2.0**64 and magnitude == math.floor(magnitude):
        return sign + str(int(magnitude))
    return sign + "bits %016x" % bits_of(magnitude)


def print_yes(value):
    return " yes" if value else " no"


def print_elements(elements, print_element):
    """Elements, each after a space."""
    return "".join(" " + print_element(element) for element in elements)


def print_output(elements, print_element, sum_of):
    """An output: `,` and its elements, or some and the sums where there are more than 128."""
    if len(elements) <= 128:
        return "," + print_elements(elements, print_element)
    total = 0
    totals = 0
    for element in elements:
        total = (total + sum_of(element)) % 2**64
        totals = (totals + total) % 2**64
    return (
        ","
        + print_elements(elements[:4], print_element)
        + " .."
        + print_elements(elements[-5:], print_element)
        + " sum "
        + str(total)
        + " "
        + str(totals)
    )


def print_numbers(elements):
    """An output of numbers."""
    return print_output(elements, print_number, int)


def print_reals(elements):
    """An output of floats, whose sum is of their bits."""
    return print_output(elements, print_real, bits_of)


def print_refusal(refusal):
    return " refused " + str(refusal)


def print_view(players, counts):
    """P and the eight counts."""
    return ", P " + str(players) + ", counts" + print_elements(counts, print_number)


def print_survivors(survivors):
    """P, the eight counts and, for each player with a mark, the marked strategies."""
    text = print_view(survivors.players, survivors.counts)
    for player in range(8):
        marked = [s for s in range(64) if survivors.marks[player * 64 + s]]
        if marked:
            text += ", %d's" % player + print_elements(marked, print_number)
    return text
