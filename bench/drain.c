/* Reads standard input to its end, and prints how many bytes it had. */
#include <stdio.h>
#include <unistd.h>

int main(void)
{
    static char buffer[65536];
    size_t total = 0;
    ssize_t n;
    while ((n = read(STDIN_FILENO, buffer, sizeof buffer)) > 0)
        total += (size_t)n;
    if (n < 0) {
        perror("drain");
        return 1;
    }
    printf("%zu\n", total);
    return 0;
}
