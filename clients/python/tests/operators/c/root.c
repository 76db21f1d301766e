/* The square root of an unsigned number, rounded down. */
int64_t root(uint64_t x) {
    uint64_t r = 0;
    #pragma unroll
    for (int bit = 31; bit >= 0; bit--) {
        uint64_t t = r | (1UL << bit);
        if (t * t <= x) r = t;
    }
    return r;
}
