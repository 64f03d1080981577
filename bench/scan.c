/* A yardstick for bench/check.py: it cuts a text into tokens and counts them. It knows no statement. */
#include <ctype.h>
#include <stdio.h>
#include <stdlib.h>

static size_t word(const char *t, size_t i) {
    while (isalnum((unsigned char)t[i]) || t[i] == '_') i++;
    return i;
}

static size_t until(const char *t, size_t i, size_t n, char end) {
    while (i < n && t[i] != end && t[i] != '\n') i++;
    return i;
}

static size_t mark(const char *t, size_t i) {
    int doubled = t[i] == t[i + 1] && (t[i] == '<' || t[i] == '>' || t[i] == '.' || t[i] == '&' || t[i] == '|');
    int compared = t[i + 1] == '=' && (t[i] == '=' || t[i] == '!' || t[i] == '<' || t[i] == '>');
    return i + 1 + (doubled || compared);
}

int main(int argc, char **argv) {
    FILE *file = argc == 2 ? fopen(argv[1], "rb") : NULL;
    char *t = calloc(1, (4 << 20) + 2);
    size_t n, i = 0, tokens = 0, pieces = 0;
    if (!file || !t) return 1;
    n = fread(t, 1, 4 << 20, file);
    while (i < n) {
        if (isspace((unsigned char)t[i])) { i++; continue; }
        if (t[i] == '\'') { i = until(t, i, n, '\n'); continue; }
        tokens++;
        pieces += t[i] == ';';
        if (t[i] == '"') i = until(t, i + 1, n, '"') + 1;
        else if (isalnum((unsigned char)t[i])) i = word(t, i);
        else i = mark(t, i);
    }
    printf("%zu pieces, %zu tokens\n", pieces, tokens);
    return 0;
}
