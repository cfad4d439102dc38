/* The texts of errors, in libunwind's words. */
#include "unwind.h"

const char *unw_strerror(int error) {
    static const char *const texts[] = {
        [UNW_ESUCCESS] = "no error",
        [UNW_EUNSPEC] = "unspecified (general) error",
        [UNW_ENOMEM] = "out of memory",
        [UNW_EBADREG] = "bad register number",
        [UNW_EREADONLYREG] = "attempt to write read-only register",
        [UNW_ESTOPUNWIND] = "stop unwinding",
        [UNW_EINVALIDIP] = "invalid IP",
        [UNW_EBADFRAME] = "bad frame",
        [UNW_EINVAL] = "unsupported operation or bad value",
        [UNW_EBADVERSION] = "unwind info has unsupported version",
        [UNW_ENOINFO] = "no unwind info found",
    };
    return error <= 0 && error >= -UNW_ENOINFO ? texts[-error] : "invalid error code";
}
