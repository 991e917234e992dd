// Virtual bases, whose offsets in an object are in its vtable. It stops at one place: STOP(1).
struct shared {
    int common = 11;
};
struct left : virtual shared {
    long one = 1;
};
struct right : virtual shared {
    long two = 2;
};
struct whole : left, right {
    int last = 3;
};

__attribute__((noinline)) static int show(whole &given, left &part)
{
    whole copied = given;
    __builtin_trap();
    return copied.common + part.common;
}

int main()
{
    whole object;
    return show(object, object);
}
