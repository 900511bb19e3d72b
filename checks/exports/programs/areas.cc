// Four classes with a virtual area() each, and a table of pointers to their base class.
#include <stdio.h>

struct Shape {
    virtual long area() const = 0;
    virtual ~Shape() {}
};

struct Circle : Shape {
    long radius;
    explicit Circle(long radius) : radius(radius) {}
    long area() const override
    {
        long sum = 0;
        for (long k = 0; k < radius; k++)
            sum += 2 * k + 1;
        return sum * 355 / 113;
    }
};

struct Square : Shape {
    long side;
    explicit Square(long side) : side(side) {}
    long area() const override
    {
        long sum = 0;
        for (long k = 0; k < side; k++)
            sum += side;
        return sum;
    }
};

namespace many_sided {
struct Triangle : Shape {
    long base, height;
    Triangle(long base, long height) : base(base), height(height) {}
    long area() const override
    {
        long sum = 0;
        for (long k = 0; k < height; k++)
            sum += base;
        return sum / 2;
    }
};

template <int SIDES> struct Polygon : Shape {
    long side;
    explicit Polygon(long side) : side(side) {}
    long area() const override
    {
        long sum = 0;
        for (int k = 0; k < SIDES * side; k++)
            sum += k % SIDES;
        return sum;
    }
};
}

int main()
{
    Shape *shapes[] = {new Circle(40), new Square(60), new many_sided::Triangle(50, 80), new many_sided::Polygon<6>(20)};
    long sum = 0;
    for (int round = 0; round < 300; round++)
        for (Shape *shape : shapes)
            sum += shape->area();
    printf("%ld\n", sum);
    for (Shape *shape : shapes)
        delete shape;
    return 0;
}
