// The plain program to compare `weigh` with: reads a capture and sums the weights of its records.
#include "capture.h"
#include <stdio.h>

int main(void) {
    if (!read_capture())
        return 3;
    printf("total %llu\n", (unsigned long long)total_weight());
}
