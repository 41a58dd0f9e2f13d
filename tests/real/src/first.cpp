// Of three units the first: it has types of its own and of common.h.
#include "common.h"

struct own {
    geometry::point at;
};

int shared;
geometry::pair<int> numbers;

static int helper(own o) { return o.at.x; }

int second(geometry::point p);
int third(geometry::side s);

int first(own o) { return helper(o) + second(o.at) + third(geometry::side::left); }

extern "C" int _start() { return first(own{{1, 2}}) + shared + numbers.first; }
