// Of three units the second: the names helper and own stand in more than one.
#include "common.h"

struct own {
    geometry::pair<char> letters;
};

static own mine;

static int helper(geometry::point p) { return p.y + mine.letters.first; }

int second(geometry::point p) { return helper(p); }
