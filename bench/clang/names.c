// Names of each kind that a file offers to others, or wants of them.
extern int outside(int);
extern int missing(int) __attribute__((weak_import));
int tentative;
_Alignas(32) char block[100];
__attribute__((visibility("hidden"))) long covered;
__attribute__((weak)) int spare = 3;
int plain = 5;
static int own = 7;
__attribute__((visibility("hidden"))) int inner = 9;

__attribute__((weak)) int weak(int i) { return i + spare; }
__attribute__((weak, visibility("hidden"))) int both(int i) { return i - tentative; }
__attribute__((visibility("hidden"))) int hidden(int i) { return i * plain; }
static __attribute__((noinline)) int local(int i) { return i + own++; }
int strong(int i) {
  if (missing) {
    i = missing(i);
  }
  return outside(weak(i)) + both(hidden(local(i))) + block[i] + (int)covered + inner;
}
