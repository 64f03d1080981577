/* A yardstick for bench/codes.py: it reads the bytes of a file one by one and adds them up. */
#include <stdio.h>

int main(int argc, char **argv) {
    FILE *file = argc == 2 ? fopen(argv[1], "rb") : NULL;
    unsigned sum = 0;
    int byte;
    if (!file) return 1;
    while ((byte = getc(file)) != EOF) sum += byte;
    printf("%u\n", sum);
    return 0;
}
