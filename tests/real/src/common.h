// Types that several units have.
namespace geometry {
struct point {
    int x, y;
};
enum class side { left, right };
template <typename T> struct pair {
    T first, second;
};
} // namespace geometry
