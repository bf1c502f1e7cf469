// All arguments of a format of 8 bits, computed by the helpers of a word's width, against a calculation apart. Included
// once a width, with H(NAME) the helper of this name and EACH(NAME) the name of a function here.

static void EACH(want)(const char *operation, uint a, uint b, uint c, ulong came, uint wanted) {
    ulong arguments[] = {a, b, c};
    if (came != wanted) tell(operation, arguments, came, wanted);
}

static void EACH(two_arguments)(uint a, uint b) {
    double x = tiny_value(a), y = tiny_value(b);
    EACH(want)("add", a, b, 0, H(add)(a, b), tiny_bits(x + y));
    EACH(want)("sub", a, b, 0, H(sub)(a, b), tiny_bits(x - y));
    EACH(want)("mul", a, b, 0, H(mul)(a, b), tiny_bits(x * y));
    EACH(want)("mul_rare", a, b, 0, H(mul_rare)(a, b), tiny_bits(x * y));
    EACH(want)("div", a, b, 0, H(div)(a, b), tiny_bits(x / y));
    EACH(want)("fmod", a, b, 0, H(fmod)(a, b), tiny_bits(fmod(x, y)));
    EACH(want)("remainder", a, b, 0, H(remainder)(a, b), tiny_bits(copysign_of_zero(remainder(x, y), x)));
    EACH(want)("equal", a, b, 0, (ulong)H(equal)(a, b), x == y);
    EACH(want)("less", a, b, 0, (ulong)H(less)(a, b), x < y);
    EACH(want)("less_equal", a, b, 0, (ulong)H(less_equal)(a, b), x <= y);
    EACH(want)("less_greater", a, b, 0, (ulong)H(less_greater)(a, b), x < y || x > y);
}

static void EACH(test)(void) {
    for (uint a = 0; a < 256; a++) {
        EACH(want)("square", a, 0, 0, H(square)(a), tiny_bits(tiny_value(a) * tiny_value(a)));
        for (int n = -3; n <= 3; n++)
            EACH(want)("mul_power", a, (uint)n, 0, H(mul_power)(a, (ulong)n << 3), tiny_bits(ldexp(tiny_value(a), n)));
        EACH(want)("sqrt", a, 0, 0, H(sqrt)(a), tiny_bits(sqrt(tiny_value(a))));
        EACH(want)("rint", a, 0, 0, H(to_integral)(0, a), tiny_bits(rint(tiny_value(a))));
        EACH(want)("round", a, 0, 0, H(to_integral)(4, a), tiny_bits(round(tiny_value(a))));
        for (uint b = 0; b < 256; b++) {
            EACH(two_arguments)(a, b);
            double product = tiny_value(a) * tiny_value(b);
            for (uint c = 0; c < 256; c++)
                EACH(want)("fma", a, b, c, H(fma)(a, b, c), tiny_bits(product + tiny_value(c)));
        }
    }
}
