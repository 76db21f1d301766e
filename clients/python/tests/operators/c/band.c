/* An index operator: the value within thunk columns of the diagonal, else the sign of the distance. */
int64_t band(int64_t x, int64_t row, int64_t column, int64_t thunk) {
    int64_t distance = column - row;
    if (distance <= thunk && -distance <= thunk) return x;
    return distance < 0 ? -1 : 1;
}
