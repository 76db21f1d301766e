/* How many zeros stand before the first bit that is set. */
int64_t zeros(uint64_t x) { return x ? __builtin_clzl(x) : 64; }
