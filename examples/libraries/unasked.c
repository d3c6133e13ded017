/* In the first library: nobody asks for it. */

int unasked = 7;

int forced(void) {
    return unasked;
}
