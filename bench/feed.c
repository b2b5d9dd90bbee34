/* Writes so many scans to standard output, from memory: 4 MiB at random, again and again. */
#include "random.h"

#include <stdio.h>
#include <stdlib.h>
#include <unistd.h>

enum { CHUNK = 65536, SCANS = 64 * CHUNK };

int main(int argc, char **argv)
{
    static uint8_t scans[SCANS];
    size_t left = argc > 1 ? strtoul(argv[1], NULL, 10) : 0, at = 0;
    random_bytes(1, scans, sizeof scans);
    while (left > 0) {
        size_t size = CHUNK - at % CHUNK;
        ssize_t n = write(STDOUT_FILENO, scans + at, size < left ? size : left);
        if (n <= 0) {
            perror("feed");
            return 1;
        }
        left -= (size_t)n;
        at = (at + (size_t)n) % SCANS;
    }
    return 0;
}
