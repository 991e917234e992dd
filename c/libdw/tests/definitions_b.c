/* The other definitions. */
#include "definitions.h"

struct node { char letters[48]; } node_b = {"b"};
struct named { int second, first; } named_b = {1, 2};
struct placed { char first; int second __attribute__((packed)); short third; } placed_b = {1, 2, 3};
struct typed { float number; } typed_b = {1};
struct narrow { int low : 4, high : 4; } narrow_b = {1, 2};
struct counted { char text[2][4]; } counted_b = {{"b"}};
struct within { struct { float number; } part; } within_b = {{1}};
struct pointing { struct part *to; } pointing_b = {0};
struct same same_b = {.either = {.whole = 8}};
