/* Asks the first of a chain of static libraries for a number. ../static_libraries.sh links it with them. */

int first(int number);

int main(void) {
    return first(3) == 0;
}
