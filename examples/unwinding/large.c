/* Without a frame pointer compact unwind can't describe so much room on the stack: clang describes it by DWARF. */

int main(int count, char **words) {
    volatile char room[100000];
    room[count] = 7;
    return room[count * 2] + !words;
}
