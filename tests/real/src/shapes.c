/* One unit in C: functions, a structure, a union, an enumeration, names of types, variables, and one name for several things. */
typedef unsigned int id;

enum colour { RED, GREEN };

struct point {
    int x, y;
};

union word {
    id number;
    char bytes[4];
};

struct shape {
    struct point corner;
    enum colour colour;
    union word word;
};

static struct shape last;
int area;

static int square(int n) {
    return n * n;
}

/* A function of the name of a structure. */
int point(struct shape *s) {
    last = *s;
    return square(s->corner.x) + square(s->corner.y);
}

int _start(void) {
    struct shape s = {{1, 2}, GREEN, {3}};
    area = point(&s);
    return area;
}
