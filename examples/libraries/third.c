/* In the first library, which is asked for it when the second library's member is there. */

int third(int number) {
    return number * 3;
}
