/* Data that other files use, thread-local variables, and a weak definition that comes too late. */

typedef int (*operation)(int);
extern const operation operations[6];

const char *const kinds[] = {"many", "the first of three nodes"};

__attribute__((weak)) int on_overflow(int number) {
    return number - 0x4321;
}

/* clang asks for no alignment of their descriptors, which stand behind all data: these files have whole words alone */
_Thread_local long depth = 7;
static _Thread_local long entered;
static _Thread_local long deepest = -1;

long enter(long by) {
    depth += by;
    entered++;
    if (depth > deepest) {
        deepest = depth;
    }
    return entered + operations[by & 3]((int)deepest);
}
