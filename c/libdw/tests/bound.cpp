/* Variables that several modules have: a library of PART 1, a second one, a third one that is linked by -Bsymbolic, and
 * the program, which is PART 0, and may be ALONE. The dynamic linker says which of them each module uses. In each
 * function a variable NAME_is has what the function saw of NAME, and NAME_isnt has another value. */
#include <cerrno>
#include <ctime>
#include <unistd.h>

#if PART
#define SEE(name) __typeof__(name) name##_is = name
#else
/* also by a declaration in the function */
#define SEE(name) extern __typeof__(name) name; __typeof__(name) name##_is = name
#endif

#ifdef __clang__ /* which says nothing of aliases */
#define SEE_ALIAS(name)
#else
#define SEE_ALIAS(name) SEE(name)
#endif

inline int inlined = PART == 2 ? 101 : 1;
template<class T> struct Holder {
    static int held;
};
template<class T> int Holder<T>::held = PART == 2 ? 107 : 7;

extern "C" {
typedef void function(void);
void first(function *next, function *last);
void second(function *last);
void third();

#if PART == 1
int interposed = 20, copied = 30, real = 60;
__thread int local = 9;
extern int other __attribute__((alias("real")));
/* nothing here reads it */
int apart = 40;

void first(function *next, function *last)
{
    int held_is = Holder<int>::held, apart_is = 41, interposed_isnt = 11;
    SEE(inlined);
    SEE(interposed);
    SEE(copied);
    SEE(real);
    SEE_ALIAS(other);
    SEE(local);
    next == nullptr ? last() : reinterpret_cast<void (*)(function *)>(next)(last);
}
#elif PART == 2
int interposed = 11;
__thread int local = 109;

void second(function *last)
{
    int held_is = Holder<int>::held;
    SEE(inlined);
    SEE(interposed);
    SEE(local);
    last();
}
#else
#if PART == 3
int symbolic = 10;
__attribute__((visibility("protected"))) int guarded = 91;
#else
int symbolic = 5, guarded = 50;
extern int copied, apart, other;
extern __thread int local;
#endif

#if PART == 3 || defined ALONE
void third()
{
    SEE(symbolic);
    SEE(guarded);
    __asm__ volatile("ud2");
}
#endif
#endif
}

#if !PART
int main()
{
    SEE(symbolic);
    SEE(guarded);
    SEE(environ);
    SEE(timezone);
    SEE(program_invocation_name);
#ifndef ALONE
    copied++;
    apart++;
    other++;
    local++;
    SEE(apart);
    SEE(copied);
    SEE_ALIAS(other);
    extern __thread int local;
    int local_is = local;
    first(reinterpret_cast<function *>(second), third);
#endif
    third();
}
#endif
