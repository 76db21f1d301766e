/* The greatest common divisor of two numbers, where 16 rounds of Euclid's algorithm find it. */
int64_t gcd(uint64_t a, uint64_t b) {
    #pragma unroll
    for (int round = 0; round < 16; round++) {
        if (b) {
            uint64_t rest = a % b;
            a = b;
            b = rest;
        }
    }
    return a;
}
