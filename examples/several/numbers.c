/* Numbers, one after the other, and how many were taken. */

__attribute__((visibility("hidden"))) int counted = 0x1234;
static unsigned total = 40;
static int taken[300];

static __attribute__((noinline)) int take(int number) {
    taken[total++ % 300] = number;
    counted++;
    return number;
}

int first_number(void) {
    return take(taken[7] + 3);
}

int next_number(void) {
    return take((int)(total * 5));
}
