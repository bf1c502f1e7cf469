/* Made by polynomials.py. */

/* (2^z - 1) / (2 * z), up to z = 1.0; without what is cut off it errs by some 2^-33. */
uint float_exp2_part(uint z) {
    uint sum = 0x0000ade9u;
    sum = 0x0004c98bu + (uint)((ulong)sum * z >> 32);
    sum = 0x002bdf8du + (uint)((ulong)sum * z >> 32);
    sum = 0x013b1a32u + (uint)((ulong)sum * z >> 32);
    sum = 0x071ac4fcu + (uint)((ulong)sum * z >> 32);
    sum = 0x1ebfbdd3u + (uint)((ulong)sum * z >> 32);
    sum = 0x58b90bfcu + (uint)((ulong)sum * z >> 32);
    return sum;
}

/* (e^x - 1) / (2 * x) for x = z - 1/2, up to z = 1.0; without what is cut off it errs by some 2^-34. */
uint float_expm1_part(uint z) {
    uint sum = 0x0000d136u;
    sum = 0x0003afc4u + (uint)((ulong)sum * z >> 32);
    sum = 0x001e2903u + (uint)((ulong)sum * z >> 32);
    sum = 0x00b4424eu + (uint)((ulong)sum * z >> 32);
    sum = 0x03966923u + (uint)((ulong)sum * z >> 32);
    sum = 0x0ebba2ebu + (uint)((ulong)sum * z >> 32);
    sum = 0x2e2f386cu + (uint)((ulong)sum * z >> 32);
    sum = 0x64ba681cu + (uint)((ulong)sum * z >> 32);
    return sum;
}

/* (atanh(x) / x - 1) / z for z = x^2, up to z = 0.0297316; without what is cut off it errs by some 2^-37. */
uint float_atanh_part(uint z) {
    uint sum = 0x18ccca61u;
    sum = 0x1c67782eu + (uint)((ulong)sum * z >> 32);
    sum = 0x24926555u + (uint)((ulong)sum * z >> 32);
    sum = 0x33333318u + (uint)((ulong)sum * z >> 32);
    sum = 0x55555555u + (uint)((ulong)sum * z >> 32);
    return sum;
}

/* (sinh(x) / x - 1) / z for z = x^2, up to z = 1.0; without what is cut off it errs by some 2^-41. */
uint float_sinh_part(uint z) {
    uint sum = 0x0000006du;
    sum = 0x00002e3au + (uint)((ulong)sum * z >> 32);
    sum = 0x000d00d1u + (uint)((ulong)sum * z >> 32);
    sum = 0x02222222u + (uint)((ulong)sum * z >> 32);
    sum = 0x2aaaaaabu + (uint)((ulong)sum * z >> 32);
    return sum;
}

/* (1 - sin(x) / x) / z for z = x^2, up to z = 0.617467; without what is cut off it errs by some 2^-35. */
uint float_sine_part(uint z) {
    uint sum = 0x00002db8u;
    sum = 0x000d009du - (uint)((ulong)sum * z >> 32);
    sum = 0x0222221cu - (uint)((ulong)sum * z >> 32);
    sum = 0x2aaaaaabu - (uint)((ulong)sum * z >> 32);
    return sum;
}

/* (1 - cos(x)) / z for z = x^2, up to z = 0.617467; without what is cut off it errs by some 2^-41. */
uint float_cosine_part(uint z) {
    uint sum = 0x00000492u;
    sum = 0x0001a013u - (uint)((ulong)sum * z >> 32);
    sum = 0x005b05afu - (uint)((ulong)sum * z >> 32);
    sum = 0x0aaaaaabu - (uint)((ulong)sum * z >> 32);
    sum = 0x80000000u - (uint)((ulong)sum * z >> 32);
    return sum;
}

/* (1 - atan(x) / x) / z for z = x^2, up to z = 0.173289; without what is cut off it errs by some 2^-35. */
uint float_atan_part(uint z) {
    uint sum = 0x0a4d471cu;
    sum = 0x123e43d4u - (uint)((ulong)sum * z >> 32);
    sum = 0x171c2ec7u - (uint)((ulong)sum * z >> 32);
    sum = 0x1c6f52aeu - (uint)((ulong)sum * z >> 32);
    sum = 0x24923748u - (uint)((ulong)sum * z >> 32);
    sum = 0x33333302u - (uint)((ulong)sum * z >> 32);
    sum = 0x55555555u - (uint)((ulong)sum * z >> 32);
    return sum;
}

/* (asin(x) / x - 1) / z for z = x^2, up to z = 0.2525; without what is cut off it errs by some 2^-35. */
uint float_asin_part(uint z) {
    uint sum = 0x07947844u;
    sum = 0x015488e1u + (uint)((ulong)sum * z >> 32);
    sum = 0x04f663b9u + (uint)((ulong)sum * z >> 32);
    sum = 0x05a9abb7u + (uint)((ulong)sum * z >> 32);
    sum = 0x07c833f1u + (uint)((ulong)sum * z >> 32);
    sum = 0x0b6dade2u + (uint)((ulong)sum * z >> 32);
    sum = 0x1333334fu + (uint)((ulong)sum * z >> 32);
    sum = 0x2aaaaaabu + (uint)((ulong)sum * z >> 32);
    return sum;
}

/* (2 / sqrt(pi) - erf(x) / x) / z for z = x^2, up to z = 1.0; without what is cut off it errs by some 2^-38. */
uint float_erf_part(uint z) {
    uint sum = 0x000012adu;
    sum = 0x0000ece3u - (uint)((ulong)sum * z >> 32);
    sum = 0x0007db80u - (uint)((ulong)sum * z >> 32);
    sum = 0x003800a3u - (uint)((ulong)sum * z >> 32);
    sum = 0x01565a86u - (uint)((ulong)sum * z >> 32);
    sum = 0x06e0b364u - (uint)((ulong)sum * z >> 32);
    sum = 0x1ce2f218u - (uint)((ulong)sum * z >> 32);
    sum = 0x6049d1acu - (uint)((ulong)sum * z >> 32);
    return sum;
}

/* 1 * e^(x^2) * erfc(x) for x = 1 * (1 + z), up to z = 1.0; without what is cut off it errs by some 2^-34. */
uint float_erfcx_part_0(uint z) {
    uint sum = 0x00050ec2u;
    sum = 0x00265dbcu - (uint)((ulong)sum * z >> 32);
    sum = 0x009742b3u - (uint)((ulong)sum * z >> 32);
    sum = 0x01b5594du - (uint)((ulong)sum * z >> 32);
    sum = 0x043be9feu - (uint)((ulong)sum * z >> 32);
    sum = 0x099c456bu - (uint)((ulong)sum * z >> 32);
    sum = 0x1447e8bbu - (uint)((ulong)sum * z >> 32);
    sum = 0x2784def1u - (uint)((ulong)sum * z >> 32);
    sum = 0x45f138ceu - (uint)((ulong)sum * z >> 32);
    sum = 0x6d761e04u - (uint)((ulong)sum * z >> 32);
    return sum;
}

/* 2 * e^(x^2) * erfc(x) for x = 2 * (1 + z), up to z = 1.0; without what is cut off it errs by some 2^-35. */
uint float_erfcx_part_1(uint z) {
    uint sum = 0x0014c21eu;
    sum = 0x009f9bccu - (uint)((ulong)sum * z >> 32);
    sum = 0x02528b00u - (uint)((ulong)sum * z >> 32);
    sum = 0x05c6c1e3u - (uint)((ulong)sum * z >> 32);
    sum = 0x0b42632eu - (uint)((ulong)sum * z >> 32);
    sum = 0x1315bec9u - (uint)((ulong)sum * z >> 32);
    sum = 0x1dec854au - (uint)((ulong)sum * z >> 32);
    sum = 0x2c8e5651u - (uint)((ulong)sum * z >> 32);
    sum = 0x3f53475cu - (uint)((ulong)sum * z >> 32);
    sum = 0x559ca96eu - (uint)((ulong)sum * z >> 32);
    sum = 0x6d5c0d21u - (uint)((ulong)sum * z >> 32);
    sum = 0x82c338dau - (uint)((ulong)sum * z >> 32);
    return sum;
}

/* 4 * e^(x^2) * erfc(x) for x = 4 * (1 + z), up to z = 1.0; without what is cut off it errs by some 2^-34. */
uint float_erfcx_part_2(uint z) {
    uint sum = 0x00554ccdu;
    sum = 0x02944e74u - (uint)((ulong)sum * z >> 32);
    sum = 0x096b27bau - (uint)((ulong)sum * z >> 32);
    sum = 0x1607a91fu - (uint)((ulong)sum * z >> 32);
    sum = 0x263c0016u - (uint)((ulong)sum * z >> 32);
    sum = 0x369c5527u - (uint)((ulong)sum * z >> 32);
    sum = 0x4592fc6fu - (uint)((ulong)sum * z >> 32);
    sum = 0x538136bdu - (uint)((ulong)sum * z >> 32);
    sum = 0x610bac21u - (uint)((ulong)sum * z >> 32);
    sum = 0x6e2cafa3u - (uint)((ulong)sum * z >> 32);
    sum = 0x7a504204u - (uint)((ulong)sum * z >> 32);
    sum = 0x84a4910du - (uint)((ulong)sum * z >> 32);
    sum = 0x8c4995f8u - (uint)((ulong)sum * z >> 32);
    return sum;
}

/* 8 * e^(x^2) * erfc(x) for x = 8 * (1 + z), up to z = 1.0; without what is cut off it errs by some 2^-33. */
uint float_erfcx_part_3(uint z) {
    uint sum = 0x00c5b5e3u;
    sum = 0x05d84974u - (uint)((ulong)sum * z >> 32);
    sum = 0x14ab6155u - (uint)((ulong)sum * z >> 32);
    sum = 0x2e2f779fu - (uint)((ulong)sum * z >> 32);
    sum = 0x4b33ddb4u - (uint)((ulong)sum * z >> 32);
    sum = 0x62c22ea6u - (uint)((ulong)sum * z >> 32);
    sum = 0x71d284ffu - (uint)((ulong)sum * z >> 32);
    sum = 0x7adbee7bu - (uint)((ulong)sum * z >> 32);
    sum = 0x810e2055u - (uint)((ulong)sum * z >> 32);
    sum = 0x85fc929au - (uint)((ulong)sum * z >> 32);
    sum = 0x8a082c2cu - (uint)((ulong)sum * z >> 32);
    sum = 0x8d2c406au - (uint)((ulong)sum * z >> 32);
    sum = 0x8f546200u - (uint)((ulong)sum * z >> 32);
    return sum;
}

/* 16 * e^(x^2) * erfc(x) for x = 16 * (1 + z), up to z = 1.0; without what is cut off it errs by some 2^-33. */
uint float_erfcx_part_4(uint z) {
    uint sum = 0x00fdb4c3u;
    sum = 0x0773493fu - (uint)((ulong)sum * z >> 32);
    sum = 0x1a19afebu - (uint)((ulong)sum * z >> 32);
    sum = 0x398c0452u - (uint)((ulong)sum * z >> 32);
    sum = 0x5bf72b68u - (uint)((ulong)sum * z >> 32);
    sum = 0x75cc1c96u - (uint)((ulong)sum * z >> 32);
    sum = 0x83b6f3a2u - (uint)((ulong)sum * z >> 32);
    sum = 0x89a00a53u - (uint)((ulong)sum * z >> 32);
    sum = 0x8c29cfddu - (uint)((ulong)sum * z >> 32);
    sum = 0x8da7cf57u - (uint)((ulong)sum * z >> 32);
    sum = 0x8ec385a4u - (uint)((ulong)sum * z >> 32);
    sum = 0x8f982a1eu - (uint)((ulong)sum * z >> 32);
    sum = 0x9026ee6cu - (uint)((ulong)sum * z >> 32);
    return sum;
}

/* 64 bits of 2 / pi, from bit 64 * i on of its fraction behind 64 bits 0. */
ulong float_two_over_pi(int i) {
    if (i < 3) {
        if (i < 1) {
            return 0x0000000000000000ul;
        } else {
            if (i < 2) {
                return 0xa2f9836e4e441529ul;
            } else {
                return 0xfc2757d1f534ddc0ul;
            }
        }
    } else {
        if (i < 4) {
            return 0xdb6295993c439041ul;
        } else {
            if (i < 5) {
                return 0xfe5163abdebbc561ul;
            } else {
                return 0xb7246e3a424dd2e0ul;
            }
        }
    }
}

