/* The operations and built-in functions of float and double, and the helpers of floats.cl that compute them.

     OPERATION(name, helper, result, arguments)
     STORING(name, helper, arguments, stored helper, stored result, stored arguments)

   `name` is an operator or a function of OpenCL 1.2, 6.3 and 6.12. The helper's name is float_ or double_ and `helper`.
   Numbers of a format are given as their bits, a float as uint, a double as ulong. A result is FORMAT: such bits,
   TRUTH: an int that is 0 or 1, NOT: the same the other way round, or INT. In `arguments` a letter stands for each
   argument of the helper: a, b and c for the bits of the operation's operands, B for those of b with the other sign,
   i for its second operand as an int, a digit for that number. STORING is a function that stores a second result
   through its last operand, a pointer; its first result is FORMAT. The row of helpers.h of each helper has the types
   of its parameters, and which helpers it calls. */

/* operators */
OPERATION("+", add, FORMAT, "ab")
OPERATION("-", add, FORMAT, "aB")
OPERATION("*", mul, FORMAT, "ab")
OPERATION("/", div, FORMAT, "ab")
OPERATION("unary -", negate, FORMAT, "a")
OPERATION("==", equal, TRUTH, "ab")
OPERATION("!=", equal, NOT, "ab")
OPERATION("<", less, TRUTH, "ab")
OPERATION(">", less, TRUTH, "ba")
OPERATION("<=", less_equal, TRUTH, "ab")
OPERATION(">=", less_equal, TRUTH, "ba")

/* relational functions (6.12.6); of vectors -1 in place of 1 */
OPERATION("isequal", equal, TRUTH, "ab")
OPERATION("isnotequal", equal, NOT, "ab")
OPERATION("isgreater", less, TRUTH, "ba")
OPERATION("isgreaterequal", less_equal, TRUTH, "ba")
OPERATION("isless", less, TRUTH, "ab")
OPERATION("islessequal", less_equal, TRUTH, "ab")
OPERATION("islessgreater", less_greater, TRUTH, "ab")
OPERATION("isordered", isunordered, NOT, "ab")
OPERATION("isunordered", isunordered, TRUTH, "ab")
OPERATION("isnan", isnan, TRUTH, "a")
OPERATION("isinf", isinf, TRUTH, "a")
OPERATION("isfinite", isfinite, TRUTH, "a")
OPERATION("isnormal", isnormal, TRUTH, "a")
OPERATION("signbit", signbit, TRUTH, "a")

/* common functions (6.12.4) */
OPERATION("clamp", clamp, FORMAT, "abc")
OPERATION("degrees", degrees, FORMAT, "a")
OPERATION("max", fmax, FORMAT, "ab")
OPERATION("min", fmin, FORMAT, "ab")
OPERATION("mix", mix, FORMAT, "abc")
OPERATION("radians", radians, FORMAT, "a")
OPERATION("sign", sign, FORMAT, "a")
OPERATION("smoothstep", smoothstep, FORMAT, "abc")
OPERATION("step", step, FORMAT, "ab")

/* exact functions (6.12.2) */
OPERATION("ceil", to_integral, FORMAT, "2a")
OPERATION("copysign", copysign, FORMAT, "ab")
OPERATION("fabs", fabs, FORMAT, "a")
OPERATION("fdim", fdim, FORMAT, "ab")
OPERATION("floor", to_integral, FORMAT, "3a")
OPERATION("fma", fma, FORMAT, "abc")
OPERATION("fmax", fmax, FORMAT, "ab")
OPERATION("fmin", fmin, FORMAT, "ab")
OPERATION("fmod", fmod, FORMAT, "ab")
OPERATION("ilogb", ilogb, INT, "a")
OPERATION("ldexp", ldexp, FORMAT, "ai")
OPERATION("logb", logb, FORMAT, "a")
OPERATION("mad", fma, FORMAT, "abc")
OPERATION("maxmag", maxmag, FORMAT, "ab")
OPERATION("minmag", minmag, FORMAT, "ab")
OPERATION("nextafter", nextafter, FORMAT, "ab")
OPERATION("remainder", remainder, FORMAT, "ab")
OPERATION("rint", to_integral, FORMAT, "0a")
OPERATION("round", to_integral, FORMAT, "4a")
OPERATION("sqrt", sqrt, FORMAT, "a")
OPERATION("trunc", to_integral, FORMAT, "1a")
STORING("fract", fract, "a", to_integral, FORMAT, "3a")
STORING("frexp", frexp, "a", frexp_exponent, INT, "a")
STORING("modf", modf, "a", to_integral, FORMAT, "1a")
STORING("remquo", remainder, "ab", quotient_of, INT, "ab")

/* elementary functions (6.12.2) */
OPERATION("acos", acos, FORMAT, "a")
OPERATION("acosh", acosh, FORMAT, "a")
OPERATION("acospi", acospi, FORMAT, "a")
OPERATION("asin", asin, FORMAT, "a")
OPERATION("asinh", asinh, FORMAT, "a")
OPERATION("asinpi", asinpi, FORMAT, "a")
OPERATION("atan", atan, FORMAT, "a")
OPERATION("atan2", atan2, FORMAT, "ab")
OPERATION("atan2pi", atan2pi, FORMAT, "ab")
OPERATION("atanh", atanh, FORMAT, "a")
OPERATION("atanpi", atanpi, FORMAT, "a")
OPERATION("cbrt", cbrt, FORMAT, "a")
OPERATION("cos", cos, FORMAT, "a")
OPERATION("cosh", cosh, FORMAT, "a")
OPERATION("cospi", cospi, FORMAT, "a")
OPERATION("erf", erf, FORMAT, "a")
OPERATION("erfc", erfc, FORMAT, "a")
OPERATION("exp", exp, FORMAT, "a")
OPERATION("exp10", exp10, FORMAT, "a")
OPERATION("exp2", exp2, FORMAT, "a")
OPERATION("expm1", expm1, FORMAT, "a")
OPERATION("hypot", hypot, FORMAT, "ab")
OPERATION("lgamma", lgamma, FORMAT, "a")
OPERATION("log", log, FORMAT, "a")
OPERATION("log10", log10, FORMAT, "a")
OPERATION("log1p", log1p, FORMAT, "a")
OPERATION("log2", log2, FORMAT, "a")
OPERATION("pow", pow, FORMAT, "ab")
OPERATION("pown", pown, FORMAT, "ai")
OPERATION("powr", powr, FORMAT, "ab")
OPERATION("rootn", rootn, FORMAT, "ai")
OPERATION("rsqrt", rsqrt, FORMAT, "a")
OPERATION("sin", sin, FORMAT, "a")
OPERATION("sinh", sinh, FORMAT, "a")
OPERATION("sinpi", sinpi, FORMAT, "a")
OPERATION("tan", tan, FORMAT, "a")
OPERATION("tanh", tanh, FORMAT, "a")
OPERATION("tanpi", tanpi, FORMAT, "a")
OPERATION("tgamma", tgamma, FORMAT, "a")
STORING("lgamma_r", lgamma, "a", gamma_sign, INT, "a")
STORING("sincos", sin, "a", cos, FORMAT, "a")

/* the forms half_ and native_ of float: the full ones */
OPERATION("half_cos", cos, FORMAT, "a")
OPERATION("half_divide", div, FORMAT, "ab")
OPERATION("half_exp", exp, FORMAT, "a")
OPERATION("half_exp10", exp10, FORMAT, "a")
OPERATION("half_exp2", exp2, FORMAT, "a")
OPERATION("half_log", log, FORMAT, "a")
OPERATION("half_log10", log10, FORMAT, "a")
OPERATION("half_log2", log2, FORMAT, "a")
OPERATION("half_powr", powr, FORMAT, "ab")
OPERATION("half_recip", recip, FORMAT, "a")
OPERATION("half_rsqrt", rsqrt, FORMAT, "a")
OPERATION("half_sin", sin, FORMAT, "a")
OPERATION("half_sqrt", sqrt, FORMAT, "a")
OPERATION("half_tan", tan, FORMAT, "a")
OPERATION("native_cos", cos, FORMAT, "a")
OPERATION("native_divide", div, FORMAT, "ab")
OPERATION("native_exp", exp, FORMAT, "a")
OPERATION("native_exp10", exp10, FORMAT, "a")
OPERATION("native_exp2", exp2, FORMAT, "a")
OPERATION("native_log", log, FORMAT, "a")
OPERATION("native_log10", log10, FORMAT, "a")
OPERATION("native_log2", log2, FORMAT, "a")
OPERATION("native_powr", powr, FORMAT, "ab")
OPERATION("native_recip", recip, FORMAT, "a")
OPERATION("native_rsqrt", rsqrt, FORMAT, "a")
OPERATION("native_sin", sin, FORMAT, "a")
OPERATION("native_sqrt", sqrt, FORMAT, "a")
OPERATION("native_tan", tan, FORMAT, "a")

/* Conversions aren't rows. A mode is 0 for _rte, 1 for _rtz, 2 for _rtp, 3 for _rtn; without a suffix 1 to a whole
   number and 0 to a float or double. `largest` is the largest number of the type.

     to int, uint              T_to_int(a), T_to_uint(a), where the mode is 1
     from int, uint            T_from_int(a), T_from_uint(a), where the mode is 0; of the narrower types too
     to a signed type          T_to_signed(mode, a, largest), a long in the range of the type
     to an unsigned type       T_to_unsigned(mode, a, largest), a ulong in the range of the type
     from a signed type        T_from_long(mode, a)
     from an unsigned type     T_from_ulong(mode, a)
     float to double           double_from_float(a)
     double to float           float_from_double(mode, a)
     vload_half                float_from_half(a), a being a ushort
     vstore_half               half_from_float(mode, a), half_from_double(mode, a)

   What is outside of the type, or not a number, is converted as with _sat. */
