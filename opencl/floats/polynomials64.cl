/* Made by polynomials.py. */

/* (2^z - 1) / (2 * z), up to z = 1.0; without what is cut off it errs by some 2^-69. */
ulong double_exp2_part(ulong z) {
    ulong sum = 0x00000000010a6892ul;
    sum = double_product_upper(sum, z);
    sum = 0x000000000d3e2bb3ul + sum;
    sum = double_product_upper(sum, z);
    sum = 0x00000000f5e60a22ul + sum;
    sum = double_product_upper(sum, z);
    sum = 0x0000000f24d4b3f0ul + sum;
    sum = double_product_upper(sum, z);
    sum = 0x000000da93d520a9ul + sum;
    sum = double_product_upper(sum, z);
    sum = 0x00000b1600757502ul + sum;
    sum = double_product_upper(sum, z);
    sum = 0x00007ff2ff4be73cul + sum;
    sum = double_product_upper(sum, z);
    sum = 0x00050c244bd553c9ul + sum;
    sum = double_product_upper(sum, z);
    sum = 0x002bb0ffcf16a13eul + sum;
    sum = double_product_upper(sum, z);
    sum = 0x013b2ab6fba4be85ul + sum;
    sum = double_product_upper(sum, z);
    sum = 0x071ac235c12831c0ul + sum;
    sum = double_product_upper(sum, z);
    sum = 0x1ebfbdff82c58ea0ul + sum;
    sum = double_product_upper(sum, z);
    sum = 0x58b90bfbe8e7bcd6ul + sum;
    return sum;
}

/* (e^x - 1) / (2 * x) for x = z - 1/2, up to z = 1.0; without what is cut off it errs by some 2^-68. */
ulong double_expm1_part(ulong z) {
    ulong sum = 0x0000000006544286ul;
    sum = double_product_upper(sum, z);
    sum = 0x000000002f83c2e2ul + sum;
    sum = double_product_upper(sum, z);
    sum = 0x00000002e3329259ul + sum;
    sum = double_product_upper(sum, z);
    sum = 0x00000021f891dca3ul + sum;
    sum = double_product_upper(sum, z);
    sum = 0x0000017805a9d007ul + sum;
    sum = double_product_upper(sum, z);
    sum = 0x00000ec1534989faul + sum;
    sum = double_product_upper(sum, z);
    sum = 0x000085912082460aul + sum;
    sum = double_product_upper(sum, z);
    sum = 0x0004344c00c1ae86ul + sum;
    sum = double_product_upper(sum, z);
    sum = 0x001db4be299336e9ul + sum;
    sum = double_product_upper(sum, z);
    sum = 0x00b479f0074eff52ul + sum;
    sum = double_product_upper(sum, z);
    sum = 0x03965accc0ef0fe8ul + sum;
    sum = double_product_upper(sum, z);
    sum = 0x0ebba4b95585f33aul + sum;
    sum = double_product_upper(sum, z);
    sum = 0x2e2f385589ef1039ul + sum;
    sum = double_product_upper(sum, z);
    sum = 0x64ba681c834fb00cul + sum;
    return sum;
}

/* (atanh(x) / x - 1) / z for z = x^2, up to z = 0.0297316; without what is cut off it errs by some 2^-66. */
ulong double_atanh_part(ulong z) {
    ulong sum = 0x0f3a43a9ee6fd86ful;
    sum = double_product_upper(sum, z);
    sum = 0x0ef56f6c057668b5ul + sum;
    sum = double_product_upper(sum, z);
    sum = 0x1111d886e523ee93ul + sum;
    sum = double_product_upper(sum, z);
    sum = 0x13b1378f27676755ul + sum;
    sum = double_product_upper(sum, z);
    sum = 0x1745d17dab81fb2cul + sum;
    sum = double_product_upper(sum, z);
    sum = 0x1c71c71c63f7e3bcul + sum;
    sum = double_product_upper(sum, z);
    sum = 0x24924924925365b7ul + sum;
    sum = double_product_upper(sum, z);
    sum = 0x3333333333333045ul + sum;
    sum = double_product_upper(sum, z);
    sum = 0x5555555555555555ul + sum;
    return sum;
}

/* (sinh(x) / x - 1) / z for z = x^2, up to z = 1.0; without what is cut off it errs by some 2^-71. */
ulong double_sinh_part(ulong z) {
    ulong sum = 0x000000000000ccf8ul;
    sum = double_product_upper(sum, z);
    sum = 0x0000000000d73bbeul + sum;
    sum = double_product_upper(sum, z);
    sum = 0x00000000b09233e6ul + sum;
    sum = double_product_upper(sum, z);
    sum = 0x0000006b99159e4bul + sum;
    sum = double_product_upper(sum, z);
    sum = 0x00002e3bc74aadf3ul + sum;
    sum = double_product_upper(sum, z);
    sum = 0x000d00d00d00d000ul + sum;
    sum = double_product_upper(sum, z);
    sum = 0x0222222222222223ul + sum;
    sum = double_product_upper(sum, z);
    sum = 0x2aaaaaaaaaaaaaabul + sum;
    return sum;
}

/* (1 - sin(x) / x) / z for z = x^2, up to z = 0.617467; without what is cut off it errs by some 2^-66. */
ulong double_sine_part(ulong z) {
    ulong sum = 0x0000000000d58b7bul;
    sum = double_product_upper(sum, z);
    sum = 0x00000000b090bec9ul - sum;
    sum = double_product_upper(sum, z);
    sum = 0x0000006b9915043aul - sum;
    sum = double_product_upper(sum, z);
    sum = 0x00002e3bc74a8bf0ul - sum;
    sum = double_product_upper(sum, z);
    sum = 0x000d00d00d00cc98ul - sum;
    sum = double_product_upper(sum, z);
    sum = 0x0222222222222200ul - sum;
    sum = double_product_upper(sum, z);
    sum = 0x2aaaaaaaaaaaaaaaul - sum;
    return sum;
}

/* (1 - cos(x)) / z for z = x^2, up to z = 0.617467; without what is cut off it errs by some 2^-73. */
ulong double_cosine_part(ulong z) {
    ulong sum = 0x00000000000d5849ul;
    sum = double_product_upper(sum, z);
    sum = 0x000000000c9c9e95ul - sum;
    sum = double_product_upper(sum, z);
    sum = 0x00000008f76c697ful - sum;
    sum = double_product_upper(sum, z);
    sum = 0x0000049f93edd9f7ul - sum;
    sum = double_product_upper(sum, z);
    sum = 0x0001a01a01a01959ul - sum;
    sum = double_product_upper(sum, z);
    sum = 0x005b05b05b05b04eul - sum;
    sum = double_product_upper(sum, z);
    sum = 0x0aaaaaaaaaaaaaaaul - sum;
    sum = double_product_upper(sum, z);
    sum = 0x8000000000000000ul - sum;
    return sum;
}

/* (1 - atan(x) / x) / z for z = x^2, up to z = 0.173289; without what is cut off it errs by some 2^-68. */
ulong double_atan_part(ulong z) {
    ulong sum = 0x0307fd749d17dfa4ul;
    sum = double_product_upper(sum, z);
    sum = 0x06f3128ed825f6e8ul - sum;
    sum = double_product_upper(sum, z);
    sum = 0x09842e7a7e098140ul - sum;
    sum = double_product_upper(sum, z);
    sum = 0x0afd2e728955c753ul - sum;
    sum = double_product_upper(sum, z);
    sum = 0x0c2bca5e9ed8f10cul - sum;
    sum = double_product_upper(sum, z);
    sum = 0x0d78c72cd26442fdul - sum;
    sum = double_product_upper(sum, z);
    sum = 0x0f0f06740d822284ul - sum;
    sum = double_product_upper(sum, z);
    sum = 0x111110a6207cbe3cul - sum;
    sum = double_product_upper(sum, z);
    sum = 0x13b13b1027d7cabeul - sum;
    sum = double_product_upper(sum, z);
    sum = 0x1745d17449a3843dul - sum;
    sum = double_product_upper(sum, z);
    sum = 0x1c71c71c7186e17cul - sum;
    sum = double_product_upper(sum, z);
    sum = 0x249249249248b5b2ul - sum;
    sum = double_product_upper(sum, z);
    sum = 0x33333333333332e8ul - sum;
    sum = double_product_upper(sum, z);
    sum = 0x5555555555555555ul - sum;
    return sum;
}

/* (asin(x) / x - 1) / z for z = x^2, up to z = 0.2525; without what is cut off it errs by some 2^-71. */
ulong double_asin_part(ulong z) {
    ulong sum = 0x08d50b21301ad147ul;
    sum = double_product_upper(sum, z);
    sum = 0x0967eaa6cd0d8ef2ul - sum;
    sum = double_product_upper(sum, z);
    sum = 0x086c146f0b3a0505ul - sum;
    sum = double_product_upper(sum, z);
    sum = 0x01d6a30c941af5f7ul - sum;
    sum = double_product_upper(sum, z);
    sum = 0x026be051601386f8ul - sum;
    sum = double_product_upper(sum, z);
    sum = 0x0171a068b7a77ee2ul + sum;
    sum = double_product_upper(sum, z);
    sum = 0x01e7adbbb7b835c4ul + sum;
    sum = double_product_upper(sum, z);
    sum = 0x0224de8d5383ac4cul + sum;
    sum = double_product_upper(sum, z);
    sum = 0x027fd30e52452f17ul + sum;
    sum = double_product_upper(sum, z);
    sum = 0x02f50d9ecd8f4f2aul + sum;
    sum = double_product_upper(sum, z);
    sum = 0x0393334422d41133ul + sum;
    sum = double_product_upper(sum, z);
    sum = 0x04713b132706005dul + sum;
    sum = double_product_upper(sum, z);
    sum = 0x05ba2e8ba5cea1e6ul + sum;
    sum = double_product_upper(sum, z);
    sum = 0x07c71c71c7130690ul + sum;
    sum = double_product_upper(sum, z);
    sum = 0x0b6db6db6db6eb83ul + sum;
    sum = double_product_upper(sum, z);
    sum = 0x1333333333333328ul + sum;
    sum = double_product_upper(sum, z);
    sum = 0x2aaaaaaaaaaaaaabul + sum;
    return sum;
}

/* (2 / sqrt(pi) - erf(x) / x) / z for z = x^2, up to z = 1.0; without what is cut off it errs by some 2^-66. */
ulong double_erf_part(ulong z) {
    ulong sum = 0x0000000004cf58b2ul;
    sum = double_product_upper(sum, z);
    sum = 0x0000000060c3b655ul - sum;
    sum = double_product_upper(sum, z);
    sum = 0x000000053c58061dul - sum;
    sum = double_product_upper(sum, z);
    sum = 0x0000003f8d0df5ecul - sum;
    sum = double_product_upper(sum, z);
    sum = 0x000002bee004dc4cul - sum;
    sum = double_product_upper(sum, z);
    sum = 0x00001b9e687c3e0bul - sum;
    sum = double_product_upper(sum, z);
    sum = 0x0000fa692cb7d99dul - sum;
    sum = double_product_upper(sum, z);
    sum = 0x0007e68c9b95016ful - sum;
    sum = double_product_upper(sum, z);
    sum = 0x003805b67ffc1843ul - sum;
    sum = double_product_upper(sum, z);
    sum = 0x01565bcd0e6947f5ul - sum;
    sum = double_product_upper(sum, z);
    sum = 0x06e0b38c4a22c80ful - sum;
    sum = double_product_upper(sum, z);
    sum = 0x1ce2f21a042be17eul - sum;
    sum = double_product_upper(sum, z);
    sum = 0x6049d1ac0de79b09ul - sum;
    return sum;
}

/* 1 * e^(x^2) * erfc(x) for x = 1 * (1 + z), up to z = 1.0; without what is cut off it errs by some 2^-68. */
ulong double_erfcx_part_0(ulong z) {
    ulong sum = 0x00000003d7796cfdul;
    sum = double_product_upper(sum, z);
    sum = 0x0000003192b45cc5ul - sum;
    sum = double_product_upper(sum, z);
    sum = 0x0000014738b8e95ful - sum;
    sum = double_product_upper(sum, z);
    sum = 0x000005f101f7dd5ful - sum;
    sum = double_product_upper(sum, z);
    sum = 0x0000169d8e0bcb61ul - sum;
    sum = double_product_upper(sum, z);
    sum = 0x00004d08df61a153ul - sum;
    sum = double_product_upper(sum, z);
    sum = 0x0000f6849502eb60ul - sum;
    sum = double_product_upper(sum, z);
    sum = 0x0002f4d6492069b9ul - sum;
    sum = double_product_upper(sum, z);
    sum = 0x0008c2416c381ae6ul - sum;
    sum = double_product_upper(sum, z);
    sum = 0x0019080e1a5a6356ul - sum;
    sum = double_product_upper(sum, z);
    sum = 0x0044d493a475dfbeul - sum;
    sum = double_product_upper(sum, z);
    sum = 0x00b57931b0a52a77ul - sum;
    sum = double_product_upper(sum, z);
    sum = 0x01c8cb956a6c6545ul - sum;
    sum = double_product_upper(sum, z);
    sum = 0x0443f3c6d212ff7dul - sum;
    sum = double_product_upper(sum, z);
    sum = 0x099e56877abddbceul - sum;
    sum = double_product_upper(sum, z);
    sum = 0x144837f8906da325ul - sum;
    sum = double_product_upper(sum, z);
    sum = 0x2784e50786597c5dul - sum;
    sum = double_product_upper(sum, z);
    sum = 0x45f138fc5f014041ul - sum;
    sum = double_product_upper(sum, z);
    sum = 0x6d761e03e55ac861ul - sum;
    return sum;
}

/* 2 * e^(x^2) * erfc(x) for x = 2 * (1 + z), up to z = 1.0; without what is cut off it errs by some 2^-68. */
ulong double_erfcx_part_1(ulong z) {
    ulong sum = 0x000000e987e4dc2ful;
    sum = double_product_upper(sum, z);
    sum = 0x00000bed27133c33ul - sum;
    sum = double_product_upper(sum, z);
    sum = 0x00004c14a94b6b9cul - sum;
    sum = double_product_upper(sum, z);
    sum = 0x00013fa1ca592302ul - sum;
    sum = double_product_upper(sum, z);
    sum = 0x0003f3f41e3bb4d3ul - sum;
    sum = double_product_upper(sum, z);
    sum = 0x000a46c06f816f42ul - sum;
    sum = double_product_upper(sum, z);
    sum = 0x001761727521f698ul - sum;
    sum = double_product_upper(sum, z);
    sum = 0x0030d61571ff3141ul - sum;
    sum = double_product_upper(sum, z);
    sum = 0x0060b5900a4e8d91ul - sum;
    sum = double_product_upper(sum, z);
    sum = 0x00b8d09047764d30ul - sum;
    sum = double_product_upper(sum, z);
    sum = 0x0157596114686ee0ul - sum;
    sum = double_product_upper(sum, z);
    sum = 0x026d25f64d925839ul - sum;
    sum = double_product_upper(sum, z);
    sum = 0x044571ea133164bbul - sum;
    sum = double_product_upper(sum, z);
    sum = 0x074dee379cc17b31ul - sum;
    sum = double_product_upper(sum, z);
    sum = 0x0c1c10fe9172610ful - sum;
    sum = double_product_upper(sum, z);
    sum = 0x1369ff9f3784abfcul - sum;
    sum = double_product_upper(sum, z);
    sum = 0x1e028e8a3faed08bul - sum;
    sum = double_product_upper(sum, z);
    sum = 0x2c920e42b35e9743ul - sum;
    sum = double_product_upper(sum, z);
    sum = 0x3f53a7592ab2ea00ul - sum;
    sum = double_product_upper(sum, z);
    sum = 0x559cae7a84f77738ul - sum;
    sum = double_product_upper(sum, z);
    sum = 0x6d5c0d3bf4fdc925ul - sum;
    sum = double_product_upper(sum, z);
    sum = 0x82c338da963baf62ul - sum;
    return sum;
}

/* 4 * e^(x^2) * erfc(x) for x = 4 * (1 + z), up to z = 1.0; without what is cut off it errs by some 2^-66. */
ulong double_erfcx_part_2(ulong z) {
    ulong sum = 0x000022899c9575c1ul;
    sum = double_product_upper(sum, z);
    sum = 0x0001cef762ef037dul - sum;
    sum = double_product_upper(sum, z);
    sum = 0x000ba4be8940ec25ul - sum;
    sum = double_product_upper(sum, z);
    sum = 0x003036371ab361fbul - sum;
    sum = double_product_upper(sum, z);
    sum = 0x0091669c169727aeul - sum;
    sum = double_product_upper(sum, z);
    sum = 0x01581348b89a4a8eul - sum;
    sum = double_product_upper(sum, z);
    sum = 0x02a2ac64dac160edul - sum;
    sum = double_product_upper(sum, z);
    sum = 0x047b3c0973c4404bul - sum;
    sum = double_product_upper(sum, z);
    sum = 0x06e0afe01d5c86c7ul - sum;
    sum = double_product_upper(sum, z);
    sum = 0x09daa12ce8961354ul - sum;
    sum = double_product_upper(sum, z);
    sum = 0x0d84e9a4e7e3b2d2ul - sum;
    sum = double_product_upper(sum, z);
    sum = 0x120bb67ba89f0019ul - sum;
    sum = double_product_upper(sum, z);
    sum = 0x179f9a8a4eda5401ul - sum;
    sum = double_product_upper(sum, z);
    sum = 0x1e6b09b6d3cfc4ebul - sum;
    sum = double_product_upper(sum, z);
    sum = 0x268bb9633c72d347ul - sum;
    sum = double_product_upper(sum, z);
    sum = 0x300d8c9ce6c1a92aul - sum;
    sum = double_product_upper(sum, z);
    sum = 0x3ae4e85565a164a3ul - sum;
    sum = double_product_upper(sum, z);
    sum = 0x46e84d6eb9c9c561ul - sum;
    sum = double_product_upper(sum, z);
    sum = 0x53ca60702a55d81dul - sum;
    sum = double_product_upper(sum, z);
    sum = 0x6115eef81d304a94ul - sum;
    sum = double_product_upper(sum, z);
    sum = 0x6e2d8e09ca4af075ul - sum;
    sum = double_product_upper(sum, z);
    sum = 0x7a504be8cf1c8822ul - sum;
    sum = double_product_upper(sum, z);
    sum = 0x84a49139ba18ce73ul - sum;
    sum = double_product_upper(sum, z);
    sum = 0x8c4995f8470aa213ul - sum;
    return sum;
}

/* 8 * e^(x^2) * erfc(x) for x = 8 * (1 + z), up to z = 1.0; without what is cut off it errs by some 2^-65. */
ulong double_erfcx_part_3(ulong z) {
    ulong sum = 0x0000f44a24e79b40ul;
    sum = double_product_upper(sum, z);
    sum = 0x000d00a54204da2dul - sum;
    sum = double_product_upper(sum, z);
    sum = 0x0054b5b40693c197ul - sum;
    sum = double_product_upper(sum, z);
    sum = 0x016077daa1e36ab6ul - sum;
    sum = double_product_upper(sum, z);
    sum = 0x0421445dc0549328ul - sum;
    sum = double_product_upper(sum, z);
    sum = 0x0993fd0e6eecf178ul - sum;
    sum = double_product_upper(sum, z);
    sum = 0x1209f1406c643726ul - sum;
    sum = double_product_upper(sum, z);
    sum = 0x1cb6ee6d3c50d63dul - sum;
    sum = double_product_upper(sum, z);
    sum = 0x280e8e0d20f39c5dul - sum;
    sum = double_product_upper(sum, z);
    sum = 0x32ac28faf00a2ffaul - sum;
    sum = double_product_upper(sum, z);
    sum = 0x3bf898e885848121ul - sum;
    sum = double_product_upper(sum, z);
    sum = 0x442082db6d524bfeul - sum;
    sum = double_product_upper(sum, z);
    sum = 0x4ba00878a163355cul - sum;
    sum = double_product_upper(sum, z);
    sum = 0x52de75e94583b113ul - sum;
    sum = double_product_upper(sum, z);
    sum = 0x5a0cd5dbb2e902f5ul - sum;
    sum = double_product_upper(sum, z);
    sum = 0x613140a6f0e7ba24ul - sum;
    sum = double_product_upper(sum, z);
    sum = 0x683b36b22ddcdc47ul - sum;
    sum = double_product_upper(sum, z);
    sum = 0x6f10d0191f67a3d6ul - sum;
    sum = double_product_upper(sum, z);
    sum = 0x7594875499ac264ful - sum;
    sum = double_product_upper(sum, z);
    sum = 0x7ba7730615f9d104ul - sum;
    sum = double_product_upper(sum, z);
    sum = 0x812a6962ce8793d0ul - sum;
    sum = double_product_upper(sum, z);
    sum = 0x85fef3e13d1b1280ul - sum;
    sum = double_product_upper(sum, z);
    sum = 0x8a08472c54dbbc7dul - sum;
    sum = double_product_upper(sum, z);
    sum = 0x8d2c40e39c4f522dul - sum;
    sum = double_product_upper(sum, z);
    sum = 0x8f5462004da2c9e5ul - sum;
    return sum;
}

/* 16 * e^(x^2) * erfc(x) for x = 16 * (1 + z), up to z = 1.0; without what is cut off it errs by some 2^-66. */
ulong double_erfcx_part_4(ulong z) {
    ulong sum = 0x00017c6907bb3ebbul;
    sum = double_product_upper(sum, z);
    sum = 0x0014db0a79e5d2b1ul - sum;
    sum = double_product_upper(sum, z);
    sum = 0x008be71bbfcaa47ful - sum;
    sum = double_product_upper(sum, z);
    sum = 0x0256b76e2325c8c1ul - sum;
    sum = double_product_upper(sum, z);
    sum = 0x0732ea1c1dbd452eul - sum;
    sum = double_product_upper(sum, z);
    sum = 0x1110a717591ef8bdul - sum;
    sum = double_product_upper(sum, z);
    sum = 0x20a5bd4db45ff85ful - sum;
    sum = double_product_upper(sum, z);
    sum = 0x345064d273ed138cul - sum;
    sum = double_product_upper(sum, z);
    sum = 0x4893e9a50a1c5a28ul - sum;
    sum = double_product_upper(sum, z);
    sum = 0x59feb3c26de0b1b9ul - sum;
    sum = double_product_upper(sum, z);
    sum = 0x66dc3a4fe3aedc40ul - sum;
    sum = double_product_upper(sum, z);
    sum = 0x6f7416438b828f4eul - sum;
    sum = double_product_upper(sum, z);
    sum = 0x751a3381b2ecd194ul - sum;
    sum = double_product_upper(sum, z);
    sum = 0x7923987b36ad5f64ul - sum;
    sum = double_product_upper(sum, z);
    sum = 0x7c6ab503888572acul - sum;
    sum = double_product_upper(sum, z);
    sum = 0x7f55185faf6410f2ul - sum;
    sum = double_product_upper(sum, z);
    sum = 0x82055971949c0297ul - sum;
    sum = double_product_upper(sum, z);
    sum = 0x8482a6d695434d80ul - sum;
    sum = double_product_upper(sum, z);
    sum = 0x86cbd3b45daf8112ul - sum;
    sum = double_product_upper(sum, z);
    sum = 0x88dde0567c09a42ful - sum;
    sum = double_product_upper(sum, z);
    sum = 0x8ab5a9e132033130ul - sum;
    sum = double_product_upper(sum, z);
    sum = 0x8c5043842e7a276bul - sum;
    sum = double_product_upper(sum, z);
    sum = 0x8dab09acf36d4069ul - sum;
    sum = double_product_upper(sum, z);
    sum = 0x8ec3aa33fc30fc61ul - sum;
    sum = double_product_upper(sum, z);
    sum = 0x8f982ac27f9f6615ul - sum;
    sum = double_product_upper(sum, z);
    sum = 0x9026ee6cb39b98daul - sum;
    return sum;
}

/* gamma(3 + z) / 8, up to z = 1.0; without what is cut off it errs by some 2^-67. */
ulong double_gamma_part(ulong z) {
    ulong sum = 0x00000001f17ea6fdul;
    sum = double_product_upper(sum, z);
    sum = 0x00000005526862f8ul - sum;
    sum = double_product_upper(sum, z);
    sum = 0x0000003b80c19e6eul - sum;
    sum = double_product_upper(sum, z);
    sum = 0x0000002d2fc582d7ul + sum;
    sum = double_product_upper(sum, z);
    sum = 0x0000051165f1e459ul + sum;
    sum = double_product_upper(sum, z);
    sum = 0x000011d00d0ee54dul + sum;
    sum = double_product_upper(sum, z);
    sum = 0x0000805ec50ab8e0ul + sum;
    sum = double_product_upper(sum, z);
    sum = 0x00022b495c059d4aul + sum;
    sum = double_product_upper(sum, z);
    sum = 0x000b1a1b867403e1ul + sum;
    sum = double_product_upper(sum, z);
    sum = 0x002ca2dd57641e9ful + sum;
    sum = double_product_upper(sum, z);
    sum = 0x00b48f8e87c8e293ul + sum;
    sum = double_product_upper(sum, z);
    sum = 0x025bdfa84ca2d759ul + sum;
    sum = double_product_upper(sum, z);
    sum = 0x075cc61f457f2099ul + sum;
    sum = double_product_upper(sum, z);
    sum = 0x12665a2bdcf1ff54ul + sum;
    sum = double_product_upper(sum, z);
    sum = 0x27e30a8f2708b093ul + sum;
    sum = double_product_upper(sum, z);
    sum = 0x3b0ee6072093cdfbul + sum;
    sum = double_product_upper(sum, z);
    sum = 0x4000000000000000ul + sum;
    return sum;
}

/* 64 bits of 2 / pi, from bit 64 * i on of its fraction behind 128 bits 0. */
ulong double_two_over_pi(int i) {
    if (i < 11) {
        if (i < 5) {
            if (i < 2) {
                if (i < 1) {
                    return 0x0000000000000000ul;
                } else {
                    return 0x0000000000000000ul;
                }
            } else {
                if (i < 3) {
                    return 0xa2f9836e4e441529ul;
                } else {
                    if (i < 4) {
                        return 0xfc2757d1f534ddc0ul;
                    } else {
                        return 0xdb6295993c439041ul;
                    }
                }
            }
        } else {
            if (i < 8) {
                if (i < 6) {
                    return 0xfe5163abdebbc561ul;
                } else {
                    if (i < 7) {
                        return 0xb7246e3a424dd2e0ul;
                    } else {
                        return 0x06492eea09d1921cul;
                    }
                }
            } else {
                if (i < 9) {
                    return 0xfe1deb1cb129a73eul;
                } else {
                    if (i < 10) {
                        return 0xe88235f52ebb4484ul;
                    } else {
                        return 0xe99c7026b45f7e41ul;
                    }
                }
            }
        }
    } else {
        if (i < 16) {
            if (i < 13) {
                if (i < 12) {
                    return 0x3991d639835339f4ul;
                } else {
                    return 0x9c845f8bbdf9283bul;
                }
            } else {
                if (i < 14) {
                    return 0x1ff897ffde05980ful;
                } else {
                    if (i < 15) {
                        return 0xef2f118b5a0a6d1ful;
                    } else {
                        return 0x6d367ecf27cb09b7ul;
                    }
                }
            }
        } else {
            if (i < 19) {
                if (i < 17) {
                    return 0x4f463f669e5fea2dul;
                } else {
                    if (i < 18) {
                        return 0x7527bac7ebe5f17bul;
                    } else {
                        return 0x3d0739f78a5292eaul;
                    }
                }
            } else {
                if (i < 20) {
                    return 0x6bfb5fb11f8d5d08ul;
                } else {
                    if (i < 21) {
                        return 0x56033046fc7b6babul;
                    } else {
                        return 0xf0cfbc209af4361dul;
                    }
                }
            }
        }
    }
}

