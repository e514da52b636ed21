// Prints the quotes of a file: code, number, trade, best bid and best ask, each as price x quantity or none. In place of bid and ask
// it says that the levels are not shown where only the trade is sent.
#include <stdio.h>
#include "trivsome.h"

static void print_pair(const char *name, bool there, trivsome_pair pair)
{
    if (there) printf(" %s %.4f x %u", name, pair.price / 1e4, pair.quantity);
    else printf(" %s none", name);
}

static void print_quote(const trivsome_quote *quote)
{
    unsigned bids, asks;
    printf("%.6s %u", (const char *)quote->code, quote->seq);
    print_pair("trade", trivsome_has_trade(quote), quote->trade);
    if (!trivsome_bids(quote, &bids) || !trivsome_asks(quote, &asks)) {
        puts(" levels not shown");
        return;
    }
    print_pair("bid", bids != 0, quote->bids[0]);
    print_pair("ask", asks != 0, quote->asks[0]);
    putchar('\n');
}

int main(int argc, char **argv)
{
    if (argc != 2) return fputs("usage: quotes FILE\n", stderr), 2;
    FILE *file = fopen(argv[1], "rb");
    if (file == NULL) return perror(argv[1]), 1;
    static uint8_t line[65536]; // what waits for more bytes is shorter than a frame, so there is always room for more
    size_t held = 0, at = 0, got, past;
    do {
        memmove(line, line + at, held -= at);
        held += got = fread(line + held, 1, sizeof line - held, file);
        for (at = 0; (past = trivsome_length(trivsome_move(line, held, at, got == 0))) != 0; at += past) {
            trivsome_quote quote;
            if (trivsome_is_quote(trivsome_read_quote(line, held, at, &quote))) print_quote(&quote);
        }
    } while (got != 0);
    return ferror(file) || fflush(stdout) != 0 ? perror(argv[1]), 1 : 0;
}
