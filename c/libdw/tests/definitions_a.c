/* The definitions that examples/where.c finds first. */
#include "definitions.h"

struct node { char letter; } node = {'a'};
struct named { int first, second; } named = {1, 2};
struct placed { char first; int second; } placed = {1, 2};
struct typed { int number; } typed = {1};
struct narrow { int low : 3, high : 5; } narrow = {1, 2};
struct counted { char text[8]; } counted = {"a"};
struct within { struct { int number; } part; } within = {{1}};
struct pointing { struct same *to; } pointing = {0};
struct same same = {.either = {.whole = 7}};
struct only { short number; } only = {9};
