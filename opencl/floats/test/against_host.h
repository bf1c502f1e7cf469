// The operations of one format against the host's unit, for count arguments each. Included once a format, with
//   REAL          the host's type
//   WORD          the type of its bits
//   WIDTH         the bits of the word, and FRACTION those of the fraction
//   H(NAME)       the helper of this name
//   M(NAME)       the function of the host's library of this name
//   EACH(NAME)    the name of a function here

static REAL EACH(value)(WORD bits) {
    REAL value;
    memcpy(&value, &bits, sizeof value);
    return value;
}

static WORD EACH(bits)(REAL value) {
    WORD bits;
    memcpy(&bits, &value, sizeof bits);
    return bits;
}

// Whether both are the same bits, or both a NaN, of which the helper's is the one quiet NaN.
static bool EACH(same)(WORD came, WORD wanted) {
    if (isnan(EACH(value)(wanted))) return came == EACH(bits)((REAL)NAN);
    return came == wanted;
}

static void EACH(want)(const char *operation, ulong a, ulong b, ulong c, WORD came, REAL wanted) {
    ulong arguments[] = {a, b, c};
    if (!EACH(same)(came, EACH(bits)(wanted))) tell(operation, arguments, came, EACH(bits)(wanted));
}

static void EACH(want_number)(const char *operation, ulong a, ulong b, ulong came, ulong wanted) {
    ulong arguments[] = {a, b, 0};
    if (came != wanted) tell(operation, arguments, came, wanted);
}

// Whether both are the same value; zeros of both signs are.
static void EACH(want_value)(const char *operation, ulong a, ulong b, WORD came, REAL wanted) {
    if (EACH(value)(came) != wanted) EACH(want)(operation, a, b, 0, came, wanted);
}

static void EACH(parts)(WORD a) {
    REAL x = EACH(value)(a), whole;
    int exponent = 0;
    REAL part = M(frexp)(x, &exponent);
    EACH(want)("frexp", a, 0, 0, H(frexp)(a), part);
    EACH(want_number)("frexp_exponent", a, 0, (ulong)H(frexp_exponent)(a), isfinite(x) ? (ulong)exponent : 0);
    exponent = isnan(x) || isinf(x) ? INT32_MAX : x == 0 ? INT32_MIN : M(ilogb)(x);
    EACH(want_number)("ilogb", a, 0, (ulong)H(ilogb)(a), (ulong)exponent);
    EACH(want)("logb", a, 0, 0, H(logb)(a), M(logb)(x));
    EACH(want)("modf", a, 0, 0, H(modf)(a), M(modf)(x, &whole));
    part = x - M(floor)(x);
    if (part >= 1) part = M(nextafter)(1, 0);
    if (isinf(x) || x == 0) part = M(copysign)(0, x);
    EACH(want)("fract", a, 0, 0, H(fract)(a), part);
    EACH(want)("sign", a, 0, 0, H(sign)(a), isnan(x) ? 0 : x == 0 ? x : M(copysign)(1, x));
}

static void EACH(classes)(WORD a) {
    REAL x = EACH(value)(a);
    EACH(want_number)("isnan", a, 0, (ulong)H(isnan)(a), isnan(x));
    EACH(want_number)("isinf", a, 0, (ulong)H(isinf)(a), isinf(x) != 0);
    EACH(want_number)("isfinite", a, 0, (ulong)H(isfinite)(a), isfinite(x));
    EACH(want_number)("isnormal", a, 0, (ulong)H(isnormal)(a), isnormal(x));
    EACH(want_number)("signbit", a, 0, (ulong)H(signbit)(a), signbit(x) != 0);
}

static void EACH(one_argument)(WORD a) {
    REAL x = EACH(value)(a);
    EACH(want)("sqrt", a, 0, 0, H(sqrt)(a), M(sqrt)(x));
    EACH(want)("rint", a, 0, 0, H(to_integral)(0, a), M(rint)(x));
    EACH(want)("trunc", a, 0, 0, H(to_integral)(1, a), M(trunc)(x));
    EACH(want)("ceil", a, 0, 0, H(to_integral)(2, a), M(ceil)(x));
    EACH(want)("floor", a, 0, 0, H(to_integral)(3, a), M(floor)(x));
    EACH(want)("round", a, 0, 0, H(to_integral)(4, a), M(round)(x));
    EACH(want)("fabs", a & ~((WORD)1 << (WIDTH - 1)), 0, 0, H(fabs)(isnan(x) ? EACH(bits)((REAL)NAN) : a), M(fabs)(x));
    EACH(parts)(a);
    EACH(classes)(a);
}

static void EACH(arithmetic)(WORD a, WORD b) {
    volatile REAL x = EACH(value)(a), y = EACH(value)(b);
    EACH(want)("add", a, b, 0, H(add)(a, b), x + y);
    EACH(want)("sub", a, b, 0, H(sub)(a, b), x - y);
    EACH(want)("mul", a, b, 0, H(mul)(a, b), x * y);
    EACH(want)("div", a, b, 0, H(div)(a, b), x / y);
    EACH(want)("square", a, 0, 0, H(square)(a), x * x);
    int n = (int)(chance() % (WIDTH == 32 ? 127 : 1023)) - (WIDTH == 32 ? 63 : 511);
    EACH(want)("mul_power", a, (ulong)n, 0, H(mul_power)(a, (WORD)n << FRACTION), x * M(ldexp)(1, n));
    EACH(want_number)("equal", a, b, (ulong)H(equal)(a, b), x == y);
    EACH(want_number)("less", a, b, (ulong)H(less)(a, b), x < y);
    EACH(want_number)("less_equal", a, b, (ulong)H(less_equal)(a, b), x <= y);
    EACH(want_number)("less_greater", a, b, (ulong)H(less_greater)(a, b), x < y || x > y);
    EACH(want_number)("isunordered", a, b, (ulong)H(isunordered)(a, b), isnan(x) || isnan(y));
}

static void EACH(remainders)(WORD a, WORD b) {
    REAL x = EACH(value)(a), y = EACH(value)(b);
    EACH(want)("fmod", a, b, 0, H(fmod)(a, b), M(fmod)(x, y));
    // The host's library gives some zeros another sign than that of x, which IEEE 754-2008, 5.3.1, asks for.
    REAL rest = M(remainder)(x, y);
    EACH(want)("remainder", a, b, 0, H(remainder)(a, b), rest == 0 ? M(copysign)(0, x) : rest);
    int wanted = 0, came = H(quotient_of)(a, b);
    if (!isnan(M(remquo)(x, y, &wanted))) {
        // The host's library gives 3 bits of it.
        EACH(want_number)("remquo", a, b, (ulong)(abs(came) & 7), (ulong)(abs(wanted) & 7));
        if (wanted && came) EACH(want_number)("sign of remquo", a, b, came < 0, wanted < 0);
    } else {
        EACH(want_number)("remquo", a, b, (ulong)came, 0);
    }
}

static REAL EACH(larger_magnitude)(REAL x, REAL y) {
    return M(fabs)(x) > M(fabs)(y) ? x : M(fabs)(y) > M(fabs)(x) ? y : M(fmax)(x, y);
}
static REAL EACH(smaller_magnitude)(REAL x, REAL y) {
    return M(fabs)(x) < M(fabs)(y) ? x : M(fabs)(y) < M(fabs)(x) ? y : M(fmin)(x, y);
}

// The host's fmin and fmax give a NaN for a signalling one.
static REAL EACH(quiet_value)(WORD bits) { return isnan(EACH(value)(bits)) ? (REAL)NAN : EACH(value)(bits); }

static void EACH(choices)(WORD a, WORD b) {
    REAL x = EACH(quiet_value)(a), y = EACH(quiet_value)(b);
    EACH(want_value)("fmin", a, b, H(fmin)(a, b), M(fmin)(x, y));
    EACH(want_value)("fmax", a, b, H(fmax)(a, b), M(fmax)(x, y));
    EACH(want_value)("minmag", a, b, H(minmag)(a, b), EACH(smaller_magnitude)(x, y));
    EACH(want_value)("maxmag", a, b, H(maxmag)(a, b), EACH(larger_magnitude)(x, y));
    EACH(want)("fdim", a, b, 0, H(fdim)(a, b), M(fdim)(x, y));
    EACH(want)("step", a, b, 0, H(step)(a, b), y < x ? 0 : 1);
    EACH(want)("nextafter", a, b, 0, H(nextafter)(a, b), M(nextafter)(x, y));
    if (!isnan(x)) EACH(want)("copysign", a, b, 0, H(copysign)(a, b), M(copysign)(x, EACH(value)(b)));
    int n = (int)(chance() >> (32 + chance() % 32));
    n = chance() & 1 ? n : -n;
    EACH(want)("ldexp", a, (ulong)n, 0, H(ldexp)(a, n), M(ldexp)(x, n));
}

static void EACH(two_arguments)(WORD a, WORD b) {
    EACH(arithmetic)(a, b);
    EACH(remainders)(a, b);
    EACH(choices)(a, b);
}

// a * b + c with c near the product, or where the product's last bits are.
static void EACH(three_arguments)(WORD a, WORD b) {
    WORD near = EACH(bits)(EACH(value)(a) * EACH(value)(b));
    if (chance() & 1) near -= (WORD)(chance() % 3 * FRACTION) << FRACTION;
    WORD c = (WORD)chosen(WIDTH, FRACTION, near);
    EACH(want)("fma", a, b, c, H(fma)(a, b, c), M(fma)(EACH(value)(a), EACH(value)(b), EACH(value)(c)));
}

static const int EACH(directions)[] = {FE_TONEAREST, FE_TOWARDZERO, FE_UPWARD, FE_DOWNWARD};

static ulong EACH(whole_by_chance)(void) {
    ulong a = chance() >> chance() % 64;
    if (chance() & 1) a &= ~0ul << chance() % 64;
    return chance() & 1 ? a : 0 - a;
}

static void EACH(from_whole)(ulong a) {
    for (int mode = 0; mode < 4; mode++) {
        fesetround(EACH(directions)[mode]);
        volatile ulong unsigned_a = a;
        volatile long signed_a = (long)a;
        volatile REAL unsigned_wanted = (REAL)unsigned_a, signed_wanted = (REAL)signed_a;
        fesetround(FE_TONEAREST);
        EACH(want)("from_ulong", a, (ulong)mode, 0, H(from_ulong)(mode, a), unsigned_wanted);
        EACH(want)("from_long", a, (ulong)mode, 0, H(from_long)(mode, (long)a), signed_wanted);
    }
}

static void EACH(from_ints)(uint a) {
    volatile uint unsigned_a = a;
    volatile int signed_a = (int)a;
    EACH(want)("from_uint", a, 0, 0, H(from_uint)(a), (REAL)unsigned_a);
    EACH(want)("from_int", a, 0, 0, H(from_int)((int)a), (REAL)signed_a);
}

// The number, rounded already, as it is where it lies from least to largest.
static long EACH(clamped)(long double x, long double least, long double largest) {
    if (isnan(x)) return 0;
    if (x <= least) return (long)least;
    return x >= largest ? (long)(ulong)largest : x < 0 ? (long)x : (long)(ulong)x;
}

static void EACH(to_whole)(WORD a) {
    static const ulong largest[] = {INT8_MAX, INT16_MAX, INT32_MAX, INT64_MAX};
    static const ulong ends[] = {UINT8_MAX, UINT16_MAX, UINT32_MAX, UINT64_MAX};
    for (int mode = 0; mode < 4; mode++) {
        fesetround(EACH(directions)[mode]);
        long double x = nearbyintl(EACH(value)(a));
        fesetround(FE_TONEAREST);
        for (int i = 0; i < 4; i++) {
            long wanted = EACH(clamped)(x, -(long double)largest[i] - 1, largest[i]);
            EACH(want_number)("to_signed", a, (ulong)mode, (ulong)H(to_signed)(mode, a, largest[i]), (ulong)wanted);
            wanted = EACH(clamped)(x, 0, ends[i]);
            EACH(want_number)("to_unsigned", a, (ulong)mode, H(to_unsigned)(mode, a, ends[i]), (ulong)wanted);
        }
    }
}

static void EACH(to_ints)(WORD a) {
    long double x = truncl(EACH(value)(a));
    EACH(want_number)("to_int", a, 0, (ulong)H(to_int)(a), (ulong)EACH(clamped)(x, INT32_MIN, INT32_MAX));
    EACH(want_number)("to_uint", a, 0, H(to_uint)(a), (ulong)EACH(clamped)(x, 0, UINT32_MAX));
}

// The bits of a number between -2^65 and 2^65 whose fraction is frequently near a half.
static WORD EACH(near_whole)(void) {
    int kept = (int)(chance() % 66) - 1;
    WORD bits = (WORD)(WIDTH == 32 ? 127 + kept : 1023 + kept) << FRACTION;
    WORD half = kept < FRACTION ? (WORD)1 << (FRACTION - 1 - (kept < 0 ? 0 : kept)) : 1;
    bits |= (WORD)chance() & (((WORD)1 << FRACTION) - 1) & ~(half - 1);
    bits += (WORD)(chance() % 3) - 1;
    return bits ^ (WORD)(chance() & 1) << (WIDTH - 1);
}

static void EACH(test)(unsigned long count) {
    for (unsigned long i = 0; i < count; i++) {
        WORD a = (WORD)chosen(WIDTH, FRACTION, chance()), b = (WORD)chosen(WIDTH, FRACTION, a);
        EACH(one_argument)(a);
        EACH(two_arguments)(a, b);
        EACH(three_arguments)(a, b);
        EACH(from_whole)(EACH(whole_by_chance)());
        EACH(from_ints)((uint)EACH(whole_by_chance)());
        EACH(to_whole)(i & 1 ? a : EACH(near_whole)());
        EACH(to_ints)(i & 1 ? a : EACH(near_whole)());
    }
}
