/* A table, as a switch. */
int64_t grade(int64_t x) {
    switch (x) {
        case 0: return 17;
        case 1: return 4;
        case 2: return 99;
        case 3: return -5;
        case 4: return 1234567890123;
        case 5: return 8;
        default: return x;
    }
}
