/* Request R-13's eight patterns, read from the document a second time in plain C. It shares nothing with the crate. */
#include "places.h"
#include <string.h>

static const char *const names[9] = {"disjoint",  "meet",     "overlap", "equal",        "inside",
                                     "coveredBy", "contains", "covers",  "none of these"};

static const char *const patterns[8] = {"FFTFFTTTT", "FFTFTTTTT", "TTTTTTTTT", "TFFFTFFFT",
                                        "TFFTFFTTT", "TFFTTFTTT", "TTTFFTFFT", "TTTFTTFFT"};

const char *region_name(int region) { return names[region]; }

/* T for not F. */
uint32_t region_of(const char letters[10])
{
    char shown[10];
    for (int i = 0; i < 9; i++)
        shown[i] = letters[i] == 'F' ? 'F' : 'T';
    shown[9] = 0;
    for (uint32_t row = 0; row < 8; row++)
        if (!strcmp(shown, patterns[row]))
            return row;
    return 8;
}
