// Tables of virtual functions with what they say of types, and definitions that each file with them has.

extern "C" int shapes(int number);
extern "C" int on_overflow(int number);
extern _Thread_local long depth;

template <int sides> inline int angles(int number) {
    static int asked = 0x1111 * sides;
    return (asked += number) * (sides - 2);
}

// Each class has a function outside of itself, so that this file alone has its tables. Where every file may have them,
// clang sets the highest bit of the pointer to the class's name, which is out of range here.
struct Shape {
    virtual ~Shape() {}
    virtual int area(int side) const = 0;
    virtual int corners() const;
};

struct Square : Shape {
    int area(int side) const override { return side * side; }
    int corners() const override;
};

struct Strange final : Square {
    int area(int side) const override;
};

int Shape::corners() const {
    return 0;
}

int Square::corners() const {
    return angles<4>(4);
}

int Strange::area(int side) const {
    return on_overflow(side) + (int)depth;
}

static Square square;
static Strange strange;
Shape *const all[] = {&square, &strange};

int shapes(int number) {
    const Shape *shape = all[number & 1];
    return shape->area(number) + shape->corners() + angles<7>(number);
}
