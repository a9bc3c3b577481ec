// Templates, inline functions and virtual functions: gcc puts each into a group (COMDAT) of its own.
struct Shape {
    virtual long area() const = 0;
    virtual long edges() const { return 4; }
};

struct Square : Shape {
    long side;
    explicit Square(long side) : side(side) {}
    long area() const override { return side << 3; }
};

struct Triangle : Shape {
    long base;
    explicit Triangle(long base) : base(base) {}
    long area() const override { return base >> 1; }
    long edges() const override { return 3; }
};

template <typename Number> Number larger(Number one, Number other) { return one < other ? other : one; }

// What a pure virtual function is, which no object here calls.
extern "C" void __cxa_pure_virtual() {}

__attribute__((noinline)) static long measured(const Shape &shape) { return shape.area() + shape.edges(); }

int main()
{
    Square square(9);
    Triangle triangle(60);
    return (int)(larger(measured(square), measured(triangle)) + larger<short>(7, 5));
}
