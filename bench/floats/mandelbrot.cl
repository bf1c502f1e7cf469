// How many turns of z = z * z + c stay within 2, at most `most`.
__kernel void mandelbrot(__global int *turns, int width, int most) {
    int column = get_global_id(0), row = get_global_id(1), n = 0;
    double a = -2.25 + 3.0 * column / width, b = -1.5 + 3.0 * row / width, x = 0, y = 0;
    while (n < most && x * x + y * y <= 4) {
        double next = x * x - y * y + a;
        y = 2 * x * y + b;
        x = next;
        n++;
    }
    turns[row * width + column] = n;
}
