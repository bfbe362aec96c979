/* The independent search as a program beside the layout program: a good strip from standard input, and what the layout
 * program prints of it to standard output. */
#include "common.hpp"

enum { LAYOUT_ALLOWANCE = 1000000 }; /* document 01: the layout program's */

template <class T> static void print_list(const char *word, const std::vector<T> &list) {
    printf("%s", word);
    for (int x : list) printf(" %d", x);
    printf("\n");
}

int main() {
    own::Answer a = own::search(parse(read_bytes(stdin)), LAYOUT_ALLOWANCE);
    const char *outcome = a.number == own::LAID_OUT ? "laid out" : a.number == own::NO_LAYOUT ? "no layout" : "stopped";
    printf("%s\ncount %u\n", outcome, a.count);
    if (a.number != own::LAID_OUT) return 0;
    print_list("plan", a.plan);
    print_list("trail", a.trail);
    return 0;
}
