/* A sum that stays at the least or the greatest number, where it would wrap. */
int64_t saturated(int64_t x, int64_t y) {
    int64_t sum;
    if (__builtin_add_overflow(x, y, &sum))
        return x < 0 ? -0x7fffffffffffffff - 1 : 0x7fffffffffffffff;
    return sum;
}
