/* Prints the listing of the sheet on standard input, by the proved library. */
#include <stdio.h>
#include "sewqirun.h"

int main(void) {
    static uint8_t text[65537], out[SEWQIRUN_LONGEST];
    if (sewqirun_longest() != sizeof out) {
        fprintf(stderr, "the header and the library do not agree\n");
        return 1;
    }
    size_t length = fread(text, 1, sizeof text, stdin);
    size_t n = sewqirun_listing(text, length, out);
    return fwrite(out, 1, n, stdout) == n ? 0 : 1;
}
