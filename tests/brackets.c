/*
 * Of each accepted line of standard input the texts of its brackets, in order, each on a line of its own, as bin/why-none.c finds them in the canonical line; then an empty
 * line.
 */
#define main why_none_main
#include "../bin/why-none.c"
#undef main

static void print_brackets(void)
{
    size_t place, count, length, begin, end, last;
    if (hwemiduk_read(line, line_len, HWEMIDUK_OF(&tables), &place) != HWEMIDUK_OK)
        return;
    must(hwemiduk_brackets(HWEMIDUK_OF(&tables), &count));
    must(hwemiduk_write(HWEMIDUK_OF(&tables), canonical, sizeof canonical, &length));
    last = length;
    for (size_t k = 0; k < count; k++) {
        find_bracket(canonical, length, k, &begin, &end);
        last = begin;
        printf("%.*s\n", (int)(end - begin), (const char *)canonical + begin);
    }
    find_bracket(canonical, length, count, &begin, &end);
    puts(begin == last ? "" : "a further one");
}

int main(void)
{
    int byte;
    while ((byte = getchar()) != EOF) {
        if (byte == '\n') {
            print_brackets();
            line_len = 0;
        } else if (line_len < sizeof line) {
            line[line_len++] = (uint8_t)byte;
        }
    }
    return 0;
}
