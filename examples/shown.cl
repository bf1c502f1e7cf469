__kernel void sums(__global int *a, uint n) {
    uint i;
    int sum = 0;
    for (i = 0; i < n; i++) sum += a[i];
    a[n] = sum;
}
