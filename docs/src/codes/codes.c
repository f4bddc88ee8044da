/* Prints docs/CODES.md: the codes of include/tillerwrap.h as a table, from the header's own lines. */
#include <stdio.h>

#include "tillerwrap.h"

static const char *place_of(int code)
{
    if (code >= 2 && code <= 8)
        return "byte offset";
    if ((code >= 9 && code <= 12) || code == 14)
        return "block";
    return "0";
}

static const char *given_by(int code)
{
    if (code <= 15)
        return "every call";
    if (code == 16)
        return "every call but judging";
    if (code == 17)
        return "stepping and listing";
    return code == 18 || code == 19 ? "stepping" : "stepping, and the rows of a list";
}

static void row(const char *name, int code, const char *words)
{
    printf("| %d | `%s` | %s | %s | %s |\n", code, name, words, place_of(code), given_by(code));
}

int main(void)
{
    printf("# The codes\n\n");
    printf("Made from `include/tillerwrap.h` by `make codes`. Judging gives codes 0 to 15; the other calls judge the image too, and hand\n");
    printf("its code and place on. On any code but 0 every lent byte is as it was handed in.\n\n");
    printf("| code | constant | in words | place | given by |\n|---|---|---|---|---|\n");
#define ROW(name, code, words) row(#name, code, words);
    TILLERWRAP_CODES(ROW)
#undef ROW
    return 0;
}
