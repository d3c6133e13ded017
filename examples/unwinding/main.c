/* Calls functions with several kinds of frames; -fexceptions gives those that clean up the handler of C. */

int puts(const char *text);
int spread(int number);
int guarded(int number);

static int closed;

static void close_number(int *number) {
    closed += *number;
    puts("closed");
}

/* cleans up behind a call that may throw */
__attribute__((noinline)) int with_cleanup(int number) {
    __attribute__((cleanup(close_number))) int held = number * 3;
    return spread(held + 1) ^ held;
}

/* a frame that saves many registers */
__attribute__((noinline)) int with_registers(int number) {
    int a = spread(number), b = spread(a + 1), c = spread(b + 2), d = spread(c + 3);
    return spread(a * b + c * d) + a + b - c - d;
}

/* no frame, but room on the stack */
__attribute__((noinline)) int with_room(int number) {
    volatile int room[20];
    for (int at = 0; at < 20; at++) {
        room[at] = number + at;
    }
    return room[number & 15];
}

/* neither frame nor room */
__attribute__((noinline)) int without_frame(int number) {
    return number * 17 + 4;
}

/* called by none */
__attribute__((noinline)) int unused(int number) {
    __attribute__((cleanup(close_number))) int held = number * 5;
    return spread(held - 7) + spread(number);
}

int main(void) {
    int number = with_cleanup(2) + with_registers(3) + with_room(4) + without_frame(5);
    return guarded(number) + closed;
}
