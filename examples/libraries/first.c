/* In the first library: asks the second one. */

int second(int number);

int first(int number) {
    return second(number + 1) - 1;
}
