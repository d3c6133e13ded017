/* Functions for a table, weak definitions, tentative ones, and a switch that answers strings. */

extern const char *const kinds[];
int counts[8];
long long sum;
_Alignas(64) char room[100];

/* shared.c has another one, which isn't taken */
__attribute__((weak)) int on_overflow(int number) {
    return number - 0x1234;
}

__attribute__((weak)) int limit = 0x51a7e;
__attribute__((weak, visibility("hidden"))) int own_limit = 0x71a7e;
int *const limits[] = {&limit, &own_limit, &counts[7]};

int twice(int number) {
    room[number & 63] = 2;
    return number > *limits[number % 3] ? on_overflow(number) : 2 * number;
}

int thrice(int number) {
    return number > limit ? on_overflow(number) : 3 * number + room[number & 31];
}

const char *name_of(int number) {
    switch (number) {
    case 0:
        return "none at all";
    case 1:
        return "one alone";
    case 2:
        return "the last of three nodes";
    case 3:
        return kinds[1];
    case 4:
        return "four of them";
    case 5:
        return "a handful";
    default:
        return kinds[number & 1];
    }
}
