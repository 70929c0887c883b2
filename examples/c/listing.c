/* Writes the listing of the plan on standard input, as gapcheck does, through the C entry. */
#include <stdio.h>

#include "gap_listing.h"

int main(void) {
    static uint8_t plan[8193], buffer[GAP_LISTING_ROOM];
    size_t plan_len = fread(plan, 1, sizeof plan, stdin);
    size_t length = gap_listing(plan, plan_len, buffer, sizeof buffer);
    return fwrite(buffer, 1, length, stdout) == length && length > 0 ? 0 : 1;
}
