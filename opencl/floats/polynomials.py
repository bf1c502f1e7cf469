#!/usr/bin/python3
"""Writes the polynomials and the constants of the functions: polynomials32.cl and polynomials64.cl.

    polynomials.py

Needs mpmath. A polynomial's argument z and its value are fractions of 2^32 or 2^64. Its coefficients interpolate the
function at the Chebyshev points of the interval, which is near the best approximation there is. They go by Horner's
rule in magnitudes: no partial sum changes its sign.
"""
import os

import mpmath as mp

mp.mp.prec = 250
HERE = os.path.dirname(os.path.abspath(__file__))


def series(term, z):
    """term(n, z) summed over n from 0 on, as long as it counts."""
    total, n = mp.mpf(0), 0
    while True:
        more = term(n, z)
        total += more
        n += 1
        if n > 3 and abs(more) < mp.mpf(2) ** -200:
            return total


def exp2_part(z):
    return mp.log(2) / 2 if z == 0 else (mp.power(2, z) - 1) / (2 * z)


def expm1_part(u):
    x = u - mp.mpf(1) / 2
    return mp.mpf(1) / 2 if x == 0 else mp.expm1(x) / (2 * x)


def atanh_part(z):
    return series(lambda n, x: x ** n / (2 * n + 3), z)


def sinh_part(z):
    return series(lambda n, x: x ** n / mp.factorial(2 * n + 3), z)


def sine_part(z):
    return series(lambda n, x: (-x) ** n / mp.factorial(2 * n + 3), z)


def cosine_part(z):
    return series(lambda n, x: (-x) ** n / mp.factorial(2 * n + 2), z)


def atan_part(z):
    return series(lambda n, x: (-x) ** n / (2 * n + 3), z)


def asin_part(z):
    def term(n, x):
        n += 1
        return mp.factorial(2 * n) / (4 ** n * mp.factorial(n) ** 2 * (2 * n + 1)) * x ** (n - 1)
    return series(term, z)


def erf_part(z):
    return 2 / mp.sqrt(mp.pi) * series(lambda n, x: (-x) ** n / (mp.factorial(n + 1) * (2 * n + 3)), z)


def gamma_part(u):
    return mp.gamma(3 + u) / 8


def erfcx_part(exponent):
    """2^exponent * e^(x^2) * erfc(x) for x = 2^exponent * (1 + u)"""
    def part(u):
        x = mp.mpf(2) ** exponent * (1 + u)
        return mp.mpf(2) ** exponent * mp.exp(x * x) * mp.erfc(x)
    return part


SMALL = (3 - 2 * mp.sqrt(2)) ** 2
# name, function, its definition, the end of the interval from 0 on
POLYNOMIALS = [
    ("exp2_part", exp2_part, "(2^z - 1) / (2 * z)", mp.mpf(1)),
    ("expm1_part", expm1_part, "(e^x - 1) / (2 * x) for x = z - 1/2", mp.mpf(1)),
    ("atanh_part", atanh_part, "(atanh(x) / x - 1) / z for z = x^2", SMALL * mp.mpf("1.01")),
    ("sinh_part", sinh_part, "(sinh(x) / x - 1) / z for z = x^2", mp.mpf(1)),
    ("sine_part", sine_part, "(1 - sin(x) / x) / z for z = x^2", (mp.pi / 4) ** 2 * mp.mpf("1.001")),
    ("cosine_part", cosine_part, "(1 - cos(x)) / z for z = x^2", (mp.pi / 4) ** 2 * mp.mpf("1.001")),
    ("atan_part", atan_part, "(1 - atan(x) / x) / z for z = x^2", (mp.sqrt(2) - 1) ** 2 * mp.mpf("1.01")),
    ("asin_part", asin_part, "(asin(x) / x - 1) / z for z = x^2", mp.mpf("0.2525")),
    ("erf_part", erf_part, "(2 / sqrt(pi) - erf(x) / x) / z for z = x^2", mp.mpf(1)),
] + [
    (f"erfcx_part_{i}", erfcx_part(i), f"{1 << i} * e^(x^2) * erfc(x) for x = {1 << i} * (1 + z)", mp.mpf(1))
    for i in range(5)
]
# what only words of 64 bits are used of
POLYNOMIALS_64 = [("gamma_part", gamma_part, "gamma(3 + z) / 8", mp.mpf(1))]


def keeps_signs(coefficients, end):
    """Whether each partial sum of Horner's rule has the sign of its last coefficient, on the whole interval."""
    for i in range(101):
        total = mp.mpf(0)
        for coefficient in coefficients[::-1]:
            total = total * end * i / 100 + coefficient
            if total * coefficient <= 0 or abs(total) >= 1:
                return False
    return True


def interpolated(function, end, count):
    """The coefficients, lowest first, of the polynomial through the function at `count` Chebyshev points."""
    points = [end * (1 + mp.cos(mp.pi * (2 * i + 1) / (2 * count))) / 2 for i in range(count)]
    differences = [function(point) for point in points]
    for order in range(1, count):
        for i in range(count - 1, order - 1, -1):
            differences[i] = (differences[i] - differences[i - 1]) / (points[i] - points[i - order])
    coefficients = [differences[-1]]
    for point, difference in zip(points[-2::-1], differences[-2::-1]):
        shifted = [mp.mpf(0)] + coefficients
        for i, coefficient in enumerate(coefficients):
            shifted[i] -= point * coefficient
        shifted[0] += difference
        coefficients = shifted
    return coefficients


def fitted(function, end, width):
    """The fewest coefficients, lowest first, that err by less than 2^-(width + 1) at 80 points, and the largest error."""
    places = [end * i / 79 for i in range(80)]
    values = [function(place) for place in places]
    for count in range(3, 40):
        coefficients = interpolated(function, end, count)
        error = max(abs(mp.polyval(coefficients[::-1], place) - value) for place, value in zip(places, values))
        if error < mp.mpf(2) ** -(width + 1) and keeps_signs(coefficients, end):
            return coefficients, error
    raise ValueError(function)


def literal(number, width):
    """A fraction of 2^width."""
    value = int(mp.nint(abs(number) * 2 ** width))
    assert value < 1 << width
    return f"0x{value:0{width // 4}x}" + ("u" if width == 32 else "ul")


def polynomial_text(name, function, definition, end, width):
    word, format_name = ("uint", "float") if width == 32 else ("ulong", "double")
    coefficients, error = fitted(function, end, width)
    bits = int(mp.floor(-mp.log(error, 2)))
    lines = [f"/* {definition}, up to z = {mp.nstr(end, 6)}; without what is cut off it errs by some 2^-{bits}. */",
             f"{word} {format_name}_{name}({word} z) {{",
             f"    {word} sum = {literal(coefficients[-1], width)};"]
    positive = coefficients[-1] > 0
    for coefficient in coefficients[-2::-1]:
        number = literal(coefficient, width)
        sign = "+" if (coefficient > 0) == positive else "-"
        if width == 32:
            lines.append(f"    sum = {number} {sign} (uint)((ulong)sum * z >> 32);")
        else:
            lines += ["    sum = double_product_upper(sum, z);", f"    sum = {number} {sign} sum;"]
        positive = coefficient > 0
    assert positive
    return "\n".join(lines + ["    return sum;", "}", ""])


def two_over_pi_text(width):
    """The bits of 2 / pi in words of 64 bits behind words of 0."""
    format_name, zeros, count = ("float", 1, 6) if width == 32 else ("double", 2, 22)
    with mp.workprec(2400):
        digits = int(mp.floor(2 / mp.pi * mp.mpf(2) ** (64 * 30)))
    words = [0] * zeros + [(digits >> (64 * (29 - i))) & (1 << 64) - 1 for i in range(count - zeros)]
    lines = [f"/* 64 bits of 2 / pi, from bit 64 * i on of its fraction behind {64 * zeros} bits 0. */",
             f"ulong {format_name}_two_over_pi(int i) {{"]

    def choose(first, last, indent):
        if first == last:
            lines.append(" " * indent + f"return 0x{words[first]:016x}ul;")
            return
        middle = (first + last + 1) // 2
        lines.append(" " * indent + f"if (i < {middle}) {{")
        choose(first, middle - 1, indent + 4)
        lines.append(" " * indent + "} else {")
        choose(middle, last, indent + 4)
        lines.append(" " * indent + "}")
    choose(0, count - 1, 4)
    return "\n".join(lines + ["}", ""])


def constants_text(width):
    """Lines for sed: a word of the templates, and its number."""
    half, whole = mp.mpf(2) ** (width - 1), mp.mpf(2) ** width
    log2_e, log2_10 = 1 / mp.log(2), mp.log(10, 2)
    rows = [("LOG2_E_UPPER", mp.floor(log2_e * half)), ("LOG2_E_LOWER", mp.frac(log2_e * half) * whole),
            ("LOG2_10_UPPER", mp.floor(log2_10 * whole / 4)), ("LOG2_10_LOWER", mp.frac(log2_10 * whole / 4) * whole),
            ("LOG2_E", log2_e * half), ("LOG10_E", half / mp.log(10)), ("LOG_2", mp.log(2) * half),
            ("LOG10_2", mp.log(2, 10) * half), ("SQRT_2_LESS_ONE", mp.mpf("0.41") * whole),
            ("SQRT_2", mp.sqrt(2) * half), ("ONE_LESS_SQRT_HALF", mp.mpf("0.29") * whole),
            ("PI_QUARTER", mp.pi / 4 * whole), ("TWO_OVER_PI", 2 / mp.pi * whole), ("WHOLE_PI", mp.pi / 2 * half),
            ("HALF_PI", mp.pi / 4 * half), ("QUARTER_PI", mp.pi / 8 * half),
            ("TAN_PI_EIGHTH", (mp.sqrt(2) - 1) * whole), ("ONE_OVER_SQRT_PI", whole / mp.sqrt(mp.pi))]
    lines = ["# Made by polynomials.py."]
    for name, number in rows:
        lines.append(f"s/{name}/{literal(number / whole, width)}/g")
    return "\n".join(lines) + "\n"


def main():
    for width in (32, 64):
        with open(os.path.join(HERE, f"constants{width}.sed"), "w") as file:
            file.write(constants_text(width))
        rows = POLYNOMIALS + (POLYNOMIALS_64 if width == 64 else [])
        texts = [polynomial_text(*row, width) for row in rows]
        texts.append(two_over_pi_text(width))
        with open(os.path.join(HERE, f"polynomials{width}.cl"), "w") as file:
            file.write("/* Made by polynomials.py. */\n\n" + "\n".join(texts) + "\n")


if __name__ == "__main__":
    main()
