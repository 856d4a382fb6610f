/* The one call of the library that is not proved: an export of the proved part cannot return a pointer. */
#include "soxchain.h"

const char *soxchain_strerror(int status) {
    static const char *const texts[] = {
        "no error",
        "the words or the coefficient files are refused",
        "the sound is refused or cut off, or no memory was found",
        "no memory was found",
        "ends of words or files are out of order, or past their bytes",
        "there is no stream",
        "a rate of 0",
        "no channel, or more than 16",
        "samples that make no whole frames",
        "more than 2^40 frames",
        "the stream does not wait for frames",
        "bytes of no stream of these words, rate and channels",
    };
    return status >= 0 && (size_t)status < sizeof texts / sizeof *texts ? texts[status] : "no such status";
}
