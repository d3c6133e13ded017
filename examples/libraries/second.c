/* In the second library: asks the first one again, for another member. */

int third(int number);

static int asked = 2;

int second(int number) {
    asked += number;
    return third(asked);
}
