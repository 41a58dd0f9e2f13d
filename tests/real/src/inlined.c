/* One unit that is compiled with -O2: calls that are replaced by the bodies of the functions. */
volatile int sink;

static inline int add(int a, int b) {
    sink = a;
    return a + b;
}

static inline int both(int a) {
    return add(a, 1) + add(a, 2);
}

int first(int a) {
    return both(a);
}

int _start(void) {
    return first(3) + both(sink);
}
