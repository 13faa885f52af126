"""The values of some definitions as the standard prints them, for docs/define: points, polynomials, rows of a code, modes. They are read
from the text of the definitions, so they are never older than these."""
import re

NUMBER = re.compile(r"0x[0-9A-F]+|\d+")
PART = re.compile(r"\(?(neg_ℤ \()?pos (\w+)\)*")


def items(definition):
    """The items of a definition that is a list, each as its text."""
    body = definition.text.partition(f"\n{definition.name} =")[2]
    return [item.strip() for item in body.split("∷")][:-1]


def numbers(definition):
    """The items of a list of numbers."""
    return [int(item, 0) for item in items(definition)]


def signed(text, known):
    """The whole numbers of a text, `pos n` or `neg_ℤ (pos n)` each: n is a number or a constant of the same crate."""
    found = ((sign, name if name.isdigit() else known(name).value()) for sign, name in PART.findall(text))
    return [-int(number) if sign else int(number) for sign, number in found]


def exponents(polynomial):
    """The exponents of a polynomial with x^i at bit i, the highest first."""
    return [i for i in reversed(range(polynomial.bit_length())) if polynomial >> i & 1]


def printed(polynomial):
    """A polynomial as the standard prints it, the constant first."""
    return "+".join({0: "1", 1: "x"}.get(i, f"x^{i}") for i in reversed(exponents(polynomial)))


def times(a, b):
    """The product of two polynomials over {0, 1}."""
    product = 0
    for i in exponents(a):
        product ^= b << i
    return product


def table(*rows):
    """A table, the first row its head."""
    cells = [" | ".join(str(cell) for cell in row) for row in rows]
    return [f"| {cells[0]} |", "|" + len(rows[0]) * "---|", *(f"| {row} |" for row in cells[1:])]


def points(definition, known):
    """The points of a constellation by their labels."""
    found = [signed(item, known) for item in items(definition)]
    width = (len(found) - 1).bit_length()
    return table([f"{label:0{width}b}" for label in range(len(found))], [f"({i}, {q})" for i, q in found])


def minimal_polynomials(definition, known):
    """The factors of the generators, as in tables 6a and 6b of the standard."""
    found = enumerate(numbers(definition), 1)
    rows = ([f"g{i}(x)", printed(it), " ".join(map(str, exponents(it)))] for i, it in found)
    return table(["Polynomial", "As the standard prints it", "Exponents"], *rows)


def generators(definition, known):
    """The generators: the products of the first t minimal polynomials, for each t of a mode."""
    rows = []
    for frames, name, wanted in (("normal", "minimal_16", (8, 10, 12)), ("short", "minimal_14", (12,))):
        product = 1
        for t, factor in enumerate(numbers(known(name)), 1):
            product = times(product, factor)
            if t in wanted:
                rows.append([frames, t, len(exponents(product)), " ".join(map(str, exponents(product)))])
    return table(["Frames", "t", "Terms", "Exponents of g(x)"], *rows)


def code_rows(definition, known):
    """The rows of the code of MODCOD and TYPE."""
    return table(["Row", "Hexadecimal", "Bits"], *([row, f"{it:08X}", f"{it:032b}"] for row, it in enumerate(numbers(definition))))


def code_rates(definition, known):
    """The code rates and the sizes of their codes: tables 5a and 5b."""
    head = ["Rate", "Kbch", "Nbch = k", "t", "short: Kbch", "Nbch = k"]
    found = ([int(number) for number in NUMBER.findall(item)] for item in items(definition))
    return table(head, *([f"{over}/{under}", *(size or "none" for size in sizes)] for over, under, *sizes in found))


def modcods(definition, known):
    """The MODCODs: tables 12 and 13."""
    rates = [NUMBER.findall(item)[:2] for item in items(known("rates"))]
    rows = []
    for number, item in enumerate(items(definition), 1):
        _, modulation, rate, ideal = item.split(" ", 3)
        [hundredths] = signed(ideal, known)
        rows.append([number, {"Qpsk": "QPSK", "Psk8": "8PSK"}[modulation.split(".")[1]], "/".join(rates[int(rate)]), f"{hundredths / 100:.2f}"])
    return table(["MODCOD", "Constellation", "Rate", "Ideal Es/N0 in dB"], *rows)


# (crate, file of specs, name) -> the function that prints the value.
PRINTERS = {
    ("s2_map", "Mapping", "qpsk_points"): points,
    ("s2_map", "Mapping", "psk_points"): points,
    ("s2_bch", "Generators", "minimal_16"): minimal_polynomials,
    ("s2_bch", "Generators", "minimal_14"): minimal_polynomials,
    ("s2_bch", "Generators", "generator_of"): generators,
    ("s2_plframe", "Header", "generator"): code_rows,
    ("s2_mode", "Table", "rates"): code_rates,
    ("s2_mode", "Table", "modcods"): modcods,
}


def value_lines(key, known):
    """The lines of the value of a definition, none if it has no printer. `known` has all definitions by (crate, file of specs, name)."""
    if key not in PRINTERS:
        return []
    of_crate = lambda name: next(it for (crate, _, other), (_, it) in known.items() if (crate, other) == (key[0], name))
    return PRINTERS[key](known[key][1], of_crate)
