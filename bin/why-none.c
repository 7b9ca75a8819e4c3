/*
 * Says of each line of standard input whether it has a placement, and why not: `bin/register --no-placement` shows its answers. No answer is made here: each is one of the
 * library's calls, and a bracket's text is cut out of the canonical line.
 *   NUMBER ok                           the line has a placement
 *   NUMBER no REFUSAL PLACE             it is refused
 *   NUMBER none FLOATERS POSITIONS      it has none: so many floaters have so few positions. Behind this, with a tab before each: the canonical line; and of each of these
 *                                       floaters its number, its bracket, which copy of it, where there are more, and its permitted positions
 * Byte 10 ends a line and is no part of it; nothing after the last one is no line. Status: 0, or 2 for trouble, which is told on standard error.
 */
#define _POSIX_C_SOURCE 200809L
#include <errno.h>
#include <hwemiduk.h>
#include <inttypes.h>
#include <poll.h>
#include <stdio.h>
#include <stdlib.h>
#include <unistd.h>

static hwemiduk_tables tables;
static hwemiduk_site rows[HWEMIDUK_ROWS];
static uint8_t canonical[HWEMIDUK_LINE];

/* A line that is too long is refused for it: no byte behind the first that is over is needed. */
static uint8_t line[HWEMIDUK_LINE + 1];
static size_t line_len;

/* How many lines are answered. */
static uint64_t number;

/* A call over tables that a line has been read to: none of them is refused. */
static void must(uint8_t answer)
{
    if (answer == HWEMIDUK_OK)
        return;
    fprintf(stderr, "register: the library answers %d of line %" PRIu64 ": %s\n", answer, number + 1, hwemiduk_words(answer));
    exit(2);
}

/*
 * Where bracket k stands in a canonical line, brackets counted from 0: from *begin to before *end. They stand there in the order of the tables; what stands between
 * them has no pair, and each pair within them is closed.
 */
static void find_bracket(const uint8_t *text, size_t text_len, size_t k, size_t *begin, size_t *end)
{
    size_t open = 0;
    *begin = *end = text_len;
    for (size_t at = 0; at < text_len; at++) {
        if (text[at] == '[' || text[at] == '{') {
            if (open++ == 0)
                *begin = at;
        } else if ((text[at] == ']' || text[at] == '}') && --open == 0 && k-- == 0) {
            *end = at + 1;
            return;
        }
    }
}

/* A position: its letter and number, or its terminus. */
static void print_position(hwemiduk_position position)
{
    uint16_t residues = HWEMIDUK_WIDE_AT(tables.bytes + HWEMIDUK_RESIDUES_AT);
    if (position == 0)
        printf("N-term");
    else if (position > residues)
        printf("C-term");
    else
        printf("%c%d", tables.bytes[HWEMIDUK_LETTERS_AT + position - 1], position);
}

/* How many positions these floaters have, each counted once. */
static size_t together(const uint8_t *floaters, size_t count, size_t row_count)
{
    uint8_t met[HWEMIDUK_POSITIONS] = { 0 };
    size_t positions = 0;
    for (size_t i = 0; i < count; i++)
        for (size_t row = 0; row < row_count; row++)
            if (rows[row].floater == floaters[i] && met[rows[row].position]++ == 0)
                positions++;
    return positions;
}

/* The answer to an accepted line without a placement. */
static void print_none(const uint8_t *floaters, size_t count)
{
    uint8_t brackets[HWEMIDUK_COPIES], copies[HWEMIDUK_COPIES];
    size_t length, row_count, floater_count;
    must(hwemiduk_write(HWEMIDUK_OF(&tables), canonical, sizeof canonical, &length));
    must(hwemiduk_rows(HWEMIDUK_OF(&tables), rows, HWEMIDUK_ROWS, &row_count));
    must(hwemiduk_floater_brackets(HWEMIDUK_OF(&tables), brackets, HWEMIDUK_COPIES, copies, HWEMIDUK_COPIES, &floater_count));
    printf("%" PRIu64 " none %zu %zu\t", number + 1, count, together(floaters, count, row_count));
    fwrite(canonical, 1, length, stdout);
    for (size_t i = 0; i < count; i++) {
        uint8_t bracket = brackets[floaters[i] - 1];
        size_t begin, end;
        find_bracket(canonical, length, bracket, &begin, &end);
        printf("\t%d ", floaters[i]);
        fwrite(canonical + begin, 1, end - begin, stdout);
        if (tables.bytes[HWEMIDUK_BRACKET_AT(bracket) + HWEMIDUK_HEAD_COUNT] > 1)
            printf(", copy %d", copies[floaters[i] - 1]);
        const char *before = ": ";
        for (size_t row = 0; row < row_count; row++) {
            if (rows[row].floater == floaters[i]) {
                printf("%s", before);
                print_position(rows[row].position);
                before = ", ";
            }
        }
        if (before[0] == ':')
            printf(": no position");
    }
    printf("\n");
}

/* The answer to the line in hand. */
static void print_answer(void)
{
    uint8_t floaters[HWEMIDUK_COPIES];
    size_t place, count;
    uint8_t refusal = hwemiduk_read(line, line_len, HWEMIDUK_OF(&tables), &place);
    if (refusal != HWEMIDUK_OK) {
        printf("%" PRIu64 " no %d %zu\n", number + 1, refusal, place);
    } else {
        must(hwemiduk_why_none(HWEMIDUK_OF(&tables), floaters, HWEMIDUK_COPIES, &count));
        if (count == 0)
            printf("%" PRIu64 " ok\n", number + 1);
        else
            print_none(floaters, count);
    }
    number++;
    line_len = 0;
}

/* Has all answers written. */
static void flush(void)
{
    if (fflush(stdout) == 0 && !ferror(stdout))
        return;
    fprintf(stderr, "register: the output could not be written\n");
    exit(2);
}

/* Reads more of the input; 0 at its end. Where there is nothing yet it waits. */
static size_t more(uint8_t *bytes, size_t size)
{
    for (;;) {
        ssize_t got = read(STDIN_FILENO, bytes, size);
        if (got >= 0)
            return (size_t)got;
        if (errno == EAGAIN || errno == EWOULDBLOCK) {
            struct pollfd input = { STDIN_FILENO, POLLIN, 0 };
            poll(&input, 1, -1);
        } else if (errno != EINTR) {
            fprintf(stderr, "register: the input could not be read: it ends after line %" PRIu64 "\n", number);
            exit(2);
        }
    }
}

int main(void)
{
    static uint8_t bytes[65536];
    int begun = 0;
    size_t got;
    while ((got = more(bytes, sizeof bytes)) > 0) {
        for (size_t at = 0; at < got; at++) {
            begun = bytes[at] != '\n';
            if (!begun)
                print_answer();
            else if (line_len < sizeof line)
                line[line_len++] = bytes[at];
        }
        flush();
    }
    if (begun)
        print_answer();
    flush();
    return 0;
}
