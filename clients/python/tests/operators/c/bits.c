/* How many bits are set. */
int64_t bits(uint64_t x) { return __builtin_popcountl(x); }
