/* What is done with two numbers. clang makes of the switch a table with each case's distance from the first one in
   words, a byte each; `steps` has the distances of functions from itself, which the linker writes. */

int first_number(void);
int next_number(void);

static int kept = 11;

static __attribute__((noinline, used)) int keep(int number) {
    int before = kept;
    kept = number;
    return before;
}

static __attribute__((noinline, used)) int twice(int number) {
    return keep(number) + number;
}

extern __attribute__((visibility("hidden"))) const int steps[3];

__asm__(".section __TEXT,__const\n"
        ".p2align 2\n"
        "_steps:\n"
        ".long _twice - _steps\n"
        ".long _next_number - _steps\n"
        ".long _keep - _steps\n");

static int step(int kind, int number) {
    int (*function)(int) = (int (*)(int))((const char *)steps + steps[kind % 3u]);
    return function(number);
}

int operate(int kind, int a, int b) {
    switch (kind) {
    case 0:
        return a + b;
    case 1:
        return keep(a - b);
    case 2:
        return a * next_number();
    case 3:
        return keep(b) | a;
    case 4:
        return (a ^ b) + first_number();
    case 5:
        return keep(next_number()) - b;
    case 6:
        return a & ~b;
    default:
        return step(kind, a);
    }
}
