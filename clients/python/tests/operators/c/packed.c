/* The lesser of two pairs: distances in the upper 32 bits, and where they are the same the numbers in the lower, both signed. */
int64_t packed(int64_t x, int64_t y) {
    int32_t d = x >> 32, e = y >> 32, p = x, q = y;
    if (d != e) return d < e ? x : y;
    return p < q ? x : y;
}
