// Templates, overriding, lambdas and members defined outside of their class: the areas of shapes in sorted and unsorted
// lists.
#include <stdio.h>

namespace shapes {

class Shape {
public:
    virtual ~Shape() {}
    virtual unsigned area() const = 0;
    unsigned twice() const { return 2 * area(); }
};

class Square : public Shape {
public:
    explicit Square(unsigned side) : side(side) {}
    unsigned area() const override;

private:
    unsigned side;
};

class Box final : public Shape {
public:
    Box(unsigned width, unsigned height) : width(width), height(height) {}
    unsigned area() const override;

private:
    unsigned width, height;
};

unsigned Square::area() const { return side * side; }

unsigned Box::area() const { return width * height; }

} // namespace shapes

// A list of at most N items.
template <typename T, unsigned N> class List {
public:
    void push(const T &item) { items[count++] = item; }
    unsigned length() const { return count; }
    T *begin() { return items; }
    T *end() { return items + count; }

private:
    T items[N];
    unsigned count = 0;
};

template <typename T> inline void swap(T &left, T &right) {
    T kept = left;
    left = right;
    right = kept;
}

template <typename T, typename Before> void sort(T *first, T *last, Before before) {
    for (T *at = first; at != last; at++)
        for (T *back = at; back != first && before(*back, back[-1]); back--)
            swap(*back, back[-1]);
}

template <typename T, typename Value> unsigned sum(T *first, T *last, Value value) {
    unsigned total = 0;
    for (; first != last; first++)
        total += value(*first);
    return total;
}

template <unsigned N> struct Power {
    static unsigned of(unsigned base) { return base * Power<N - 1>::of(base); }
};
template <> struct Power<0> {
    static unsigned of(unsigned) { return 1; }
};

static shapes::Shape *made(unsigned number) {
    if (number % 3 == 0)
        return new shapes::Square(number % 17);
    return new shapes::Box(number % 13, number % 11);
}

int main() {
    for (unsigned round = 0; round < 1000; round++) {
        List<shapes::Shape *, 64> list;
        List<unsigned, 64> powers;
        for (unsigned i = 0; i < 64; i++) {
            list.push(made(i * 7 + round));
            powers.push(Power<5>::of(i + round % 8));
        }
        sort(list.begin(), list.end(), [](shapes::Shape *a, shapes::Shape *b) { return a->area() < b->area(); });
        sort(powers.begin(), powers.end(), [round](unsigned a, unsigned b) { return (a ^ round) < (b ^ round); });
        unsigned areas = sum(list.begin(), list.end(), [](const shapes::Shape *shape) { return shape->twice(); });
        unsigned odd = sum(powers.begin(), powers.end(), [](unsigned power) { return power & 1; });
        printf("%u shapes of area %u, %u odd powers\n", list.length(), areas, odd);
        for (shapes::Shape *shape : list)
            delete shape;
    }
    return 0;
}
