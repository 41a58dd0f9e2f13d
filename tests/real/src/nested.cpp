// One unit in C++: namespaces, one of them without a name, nested classes, a template in two instances, overloaded functions.
namespace outer {
namespace inner {
template <typename T> struct box {
    T held;
    T get() const { return held; }
};
int twice(int n) { return 2 * n; }
} // namespace inner
struct node {
    struct node_of_node {
        int depth;
    };
    node_of_node below;
    static int count;
};
int node::count = 0;
double twice(double d) { return 2 * d; }
} // namespace outer

namespace {
int hidden = 1;
}

namespace alias = outer::inner;

int twice(int n) {
    outer::inner::box<int> a{n};
    outer::inner::box<char> b{'b'};
    outer::node c{{n}};
    return alias::twice(a.get()) + b.get() + c.below.depth + hidden + static_cast<int>(outer::twice(1.5));
}

extern "C" int _start() { return twice(outer::node::count); }
