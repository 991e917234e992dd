// Pointers to members, and classes that another unit defines: ../shapes.cpp. Its argument says where it
// stops.
#include "../shapes.h"
#include "../stop.h"

struct holder {
    long before;
    shapes::solid whole;
    int (shapes::solid::*method)(int);
};

int main(int argc, char **argv)
{
    at = argc > 1 ? atoi(argv[1]) : 0;
    shapes::solid solid(argc + 3);
    holder held = {5, shapes::solid(argc), &shapes::solid::scaled};
    int shapes::solid::*sides = &shapes::solid::sides;
    int (shapes::solid::*method)(int) = &shapes::solid::scaled;
    int (shapes::solid::*area)() = &shapes::solid::area;
    STOP(1);
    int total = (solid.*method)(2) + (solid.*area)() + solid.*sides + (held.whole.*held.method)(3);
    STOP(2);
    return total == 0;
}
