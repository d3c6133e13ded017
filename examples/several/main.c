/* Takes numbers from numbers.c and has operate.c work on them. ../several_files.sh links the three. */

int first_number(void);
int next_number(void);
int operate(int kind, int a, int b);
/* hidden, so that it isn't reached by way of the table of addresses that the loader fills */
extern __attribute__((visibility("hidden"))) int counted;

/* another file's datum has the same name */
static int total = 7;

static __attribute__((noinline)) int add_to_total(int number) {
    total += number;
    return total;
}

int main(void) {
    int number = first_number();
    for (int kind = 0; kind < 9; kind++) {
        number = add_to_total(operate(kind, number, next_number()));
    }
    return number == counted;
}
