/* Stories worked out by hand from the requests, told to the core and to the twin: see stories.h. */
#include <stdio.h>
#include <string.h>

#define TRAWL_NO_J2534_NAMES
#include "../../include/trawlpepper.h"
#include "../twin/twin.h"
#include "support.h"

static uint8_t box[TRAWL_MEMORY], every[TRAWL_RECORD], record[TRAWL_RECORD], many[17 * TRAWL_RECORD];
static unsigned long held;

static void must(int true_, const char *what) {
    if (!true_) fail(what, NULL, held);
    held++;
}

#define BOX box, sizeof box
#define LEND(b) b, sizeof b

/* a call's code, and for those that give a number (in v) that number */
#define CODE(code, call) must((call) == (code), #code " of " #call)
#define GIVES(code, number, call) (v = 0xBADC0DEu, must((call) == (code) && v == (number), #code " and " #number " of " #call))

#define CALL(f) trawl_##f
#define SIDE(f) core_##f
#include "stories.h"
#undef CALL
#undef SIDE
#define CALL(f) twin_##f
#define SIDE(f) twin_tells_##f
#include "stories.h"
#undef CALL
#undef SIDE

int main(void) {
    trawl_record_make(every, 0, 0, NULL, 0);
    for (size_t i = 0; i < 17; i++) memcpy(many + i * sizeof every, every, sizeof every);
    core_all();
    twin_tells_all();
    printf("stories worked out by hand, core and twin: %lu looks\n", held);
    return 0;
}
