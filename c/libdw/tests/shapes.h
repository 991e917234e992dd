// A class. Only the unit with its first virtual function defines it; in others clang++ only declares it.
#ifndef SHAPES_H
#define SHAPES_H

namespace shapes {
struct solid {
    virtual int area();
    int scaled(int factor);
    explicit solid(int given) : sides(given) {}
    int sides;
    double edge = 2.5;
};
} // namespace shapes

#endif
