/* The names of codes. */
#include "dwexpr_names.h"
#include "values.h"

const char *dwexpr_libdw_code_name(uint32_t code)
{
    static const char *const names[] = {
        "libdw refuses the debug information", "no such process, core dump or thread can be read", "no memory",
        "no debug information for the address", "an operation can't be encoded", "optimized away",
        "the register has the caller's value", "an implicit pointer", "memory or a register can't be read",
        "a location is smaller than its piece", "the answers take too many expressions", "there are more frames",
        "a callback gave a register of too many bytes", "there is no such number",
        "a variable of another function", "it is only declared", "the frames are cut off",
        "there are several definitions", "there is no such part",
    };
    const char *name;
    if (code >= DWEXPR_LIBDW_WANTS)
        name = dwexpr_request_name(code - DWEXPR_LIBDW_WANTS);
    else if (code >= DWEXPR_LIBDW_FAILED)
        name = code <= DWEXPR_LIBDW_NO_PART ? names[code - DWEXPR_LIBDW_FAILED] : NULL;
    else
        name = dwexpr_code_name(code);
    return name ? name : "unknown code";
}
