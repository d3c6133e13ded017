/* Strings, pointers to data and functions of this file, of others and of libraries, and tentative definitions.
   ../pointers.sh links it with the files beside it. */

typedef int (*operation)(int);

int puts(const char *line);
int toupper(int letter);
/* of the library's data, whose places the loader fills in */
extern const char *const sys_signame[];
extern char **environ;
/* a name that the library may lack */
extern int issetugid(void) __attribute__((weak_import));

int twice(int number);
int thrice(int number);
int on_overflow(int number);
int shapes(int number);
long enter(long by);
const char *name_of(int number);

/* numbers.c has the same names, one of them larger */
int counts[4];
long long sum;

static int once(int number) {
    counts[number & 3]++;
    return number;
}

const operation operations[] = {once, twice, thrice, on_overflow, toupper, twice};

struct node {
    struct node *next;
    const char *name;
    int *count;
    const char *const *signal;
};

/* each leads into the next one's middle, its own string, a datum of which the linker chooses one, and the library's data */
static struct node nodes[3] = {
    {&nodes[1], "the first of three nodes", &counts[1], sys_signame + 1},
    {&nodes[2], &"not the beginning of a string"[4], &counts[3], sys_signame + 2},
    {&nodes[0], "the last of three nodes", &counts[5], sys_signame},
};
struct node *cursor = &nodes[1];
int (*const writers[])(const char *) = {puts, puts};

int main(void) {
    int number = issetugid ? issetugid() : 5;
    for (struct node *at = cursor; at->next != nodes; at = at->next) {
        number += operations[number % 6](number) + *at->count + shapes(number);
        writers[number & 1](at->name);
        puts(*at->signal);
        puts(name_of(number));
        sum += enter(number);
    }
    return environ && sum > 100 ? number : 0;
}
