// Pointers into arrays and strings, a thread-local variable, constants, and unwind entries for the linker.
extern int shared;
extern int work(const char *text, int *at);
static int counters[4] = {1, 2, 3, 4};
static int zeros[6];
_Thread_local int depth = 7;
_Thread_local int fresh;
static const char *const names[] = {"zero", "one", &"one"[1]};
int *const places[] = {&counters[2], &shared, &shared + 3, &zeros[5]};

double scale(double x) { return x * 3.14159 + 2.71828; }

int run(int i) {
  depth += i;
  fresh -= i;
  zeros[i & 3] = i;
  return work(names[i & 1], &counters[i & 3]) + shared;
}
