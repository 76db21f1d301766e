/* x / y in parts of 1,000, rounded to the nearest, half away from 0; 0 by 0. */
static inline int64_t size(int64_t x) { return x < 0 ? -x : x; }

int64_t share(int64_t x, int64_t y) {
    if (!y) return 0;
    int64_t parts = (2000 * size(x) + size(y)) / (2 * size(y));
    return (x < 0) == (y < 0) ? parts : -parts;
}
