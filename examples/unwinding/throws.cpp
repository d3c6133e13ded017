// Functions that throw, catch and clean up. No headers are there: what the language's library has is asked for by the compiler.

extern "C" int puts(const char *text);
extern "C" int with_room(int number);

struct Guard {
    int number;
    ~Guard();
};

__attribute__((noinline)) Guard::~Guard() {
    puts(number & 1 ? "odd" : "even");
}

extern "C" __attribute__((noinline)) int spread(int number) {
    if (number > 1000) {
        throw number;
    }
    return number * 2 + 1;
}

// cleans up, and lets the exception pass
__attribute__((noinline)) int passes(int number) {
    Guard guard{number};
    return spread(number) + with_room(number);
}

// catches one kind of exceptions, and cleans up where another one passes
__attribute__((noinline)) int catches(int number) {
    Guard guard{number + 1};
    try {
        return passes(number * 3);
    } catch (int caught) {
        return caught;
    }
}

// lets no exception out
__attribute__((noinline)) int ends(int number) noexcept {
    return catches(number) - passes(number + 2);
}

// called by none
__attribute__((noinline)) int never(int number) {
    try {
        return passes(number) * 7;
    } catch (long caught) {
        return (int)caught;
    }
}

extern "C" int guarded(int number) {
    try {
        return ends(number) + passes(number);
    } catch (...) {
        return -1;
    }
}
