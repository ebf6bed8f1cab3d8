/* In which way a stand-in for the library is wrong: the number WRONG of the environment, or 0, which is right. */

#ifndef WRONG_H
#define WRONG_H

#include <stdlib.h>

static int WRONG;

__attribute__((constructor)) static void read_wrong(void) {
    const char *number = getenv("WRONG");
    WRONG = number == NULL ? 0 : atoi(number);
}

#endif
