// The second unit of tests/stopped/shapes.cpp.
#include "shapes.h"

int shapes::solid::area()
{
    return sides * 3;
}

int shapes::solid::scaled(int factor)
{
    return sides * factor;
}
