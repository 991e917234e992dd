// The frames of a process in C++: prints the process's innermost function.
#include <cstdio>
#include <cstdlib>
#include <dwexpr_libdw.h>
#include <memory>

struct Free {
    void operator()(dwexpr_libdw_target *target) const { dwexpr_libdw_close(target); }
    void operator()(dwexpr_libdw_stack *stack) const { dwexpr_libdw_free_stack(stack); }
    void operator()(dwexpr_libdw_value *value) const { dwexpr_libdw_release(value); }
};
using Target = std::unique_ptr<dwexpr_libdw_target, Free>;
using Stack = std::unique_ptr<dwexpr_libdw_stack, Free>;

int main(int, char **words)
{
    dwexpr_libdw_target *opened;
    if (dwexpr_libdw_open_process(-1, NULL, &opened) != DWEXPR_LIBDW_NO_TARGET || opened)
        return 1;
    dwexpr_libdw_open_process(static_cast<pid_t>(std::atol(words[1])), NULL, &opened);
    const Target target(opened);
    const pid_t *threads;
    dwexpr_libdw_stack *found = nullptr;
    if (!target || !dwexpr_libdw_threads(target.get(), &threads))
        return 1;
    dwexpr_libdw_unwind(target.get(), threads[0], 1000, &found);
    const Stack stack(found);
    dwexpr_libdw_place place;
    if (!stack || dwexpr_libdw_locate(dwexpr_libdw_frame_at(found, 0), &place))
        return 1;
    std::printf("%s\n", dwarf_diename(&place.function));
}
