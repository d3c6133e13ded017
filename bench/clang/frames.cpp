// Functions with and without frames, and with exceptions that pass or are caught.
extern "C" int may(int);
struct Guard { ~Guard(); };
int leaf(int x) { return x + 1; }
int frame(int x) { return may(x) + may(x + 1); }
int guarded(int x) { Guard guard; return may(x); }
int caught(int x) { try { return may(x); } catch (int y) { return y; } }
static int inner(int x) { try { return may(x + 3); } catch (...) { return 7; } }
int outer(int x) { return inner(x) + inner(x + 1); }
