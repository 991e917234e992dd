/* Both files have these. */
typedef unsigned int number;
struct part {
    char letter;
};
enum color { RED, BLUE = 5 };
struct same {
    struct same *next;
    const struct part parts[2];
    union {
        int whole;
        float real;
    } either;
    enum color color;
    number low : 3, high : 5;
    void (*call)(int);
    void *any;
};
