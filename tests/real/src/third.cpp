// Of three units the third.
#include "common.h"

namespace geometry {
int turns = 3;
static int helper(side s) { return s == side::left ? turns : 0; }
} // namespace geometry

int third(geometry::side s) { return geometry::helper(s); }
