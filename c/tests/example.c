/* The example of the header's first comment, word for word: the script takes it out of there and puts it into example.inc. */
#include <stdio.h>

#include "trawlpepper.h"

int main(void) {
#include "example.inc"
    return 0;
}
