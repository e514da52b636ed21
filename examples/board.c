// Prints what the quotes of a file said last, a line to a stock: code, last trade, best bid and best ask, each as price x quantity
// or none. A quote whose levels are not shown leaves bid and ask as they were. With a code behind the file it prints that stock's
// line alone.
#include <stdio.h>
#include "trivsome.h"

static trivsome_board board; // zeros are a clear one

static void print_pair(const char *name, bool there, trivsome_pair pair)
{
    if (there) printf(" %s %.4f x %u", name, pair.price / 1e4, pair.quantity);
    else printf(" %s none", name);
}

static void print_row(const trivsome_row *row)
{
    printf("%.6s", (const char *)row->code);
    print_pair("trade", row->has_trade, row->trade);
    print_pair("bid", row->bid_count != 0, row->bids[0]);
    print_pair("ask", row->ask_count != 0, row->asks[0]);
    putchar('\n');
}

int main(int argc, char **argv)
{
    uint8_t code[6] = {' ', ' ', ' ', ' ', ' ', ' '};
    if (argc < 2 || argc > 3 || (argc == 3 && strlen(argv[2]) > sizeof code)) return fputs("usage: board FILE [CODE]\n", stderr), 2;
    if (argc == 3) memcpy(code, argv[2], strlen(argv[2]));
    FILE *file = fopen(argv[1], "rb");
    if (file == NULL) return perror(argv[1]), 1;
    static uint8_t line[65536]; // what waits for more bytes is shorter than a frame, so there is always room for more
    size_t held = 0, at = 0, got, past, refused = 0;
    do {
        memmove(line, line + at, held -= at);
        held += got = fread(line + held, 1, sizeof line - held, file);
        for (at = 0; (past = trivsome_length(trivsome_move(line, held, at, got == 0))) != 0; at += past) {
            trivsome_quote quote; // one that was read is refused only where no row is left
            if (trivsome_is_quote(trivsome_read_quote(line, held, at, &quote))) refused += trivsome_board_take(&board, &quote) != 0;
        }
    } while (got != 0);
    if (ferror(file)) return perror(argv[1]), 1;
    if (refused != 0) fprintf(stderr, "board: %zu quotes are of stocks that found no row\n", refused);
    trivsome_row row;
    if (argc == 3) {
        if (trivsome_board_ask(&board, code, &row) != 0) return fprintf(stderr, "board: no quote of %s\n", argv[2]), 1;
        print_row(&row);
    } else {
        for (size_t place = 0; trivsome_board_row(&board, place, &row) == 0; place++) print_row(&row);
    }
    return fflush(stdout) != 0 ? perror("board"), 1 : 0;
}
