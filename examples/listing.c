/* The static library from C: what the listing program does, a meter list from standard input opened and searched.
 * cc -I include examples/listing.c target/staticlib/libjezynar.a -o listing */
#include <stdio.h>

#include "jezynar.h"

enum { LIST_LEN = 65536 };

static void print_entry(struct jezynar_entry entry)
{
    static const char *const words[] = {"one", "mute", "many"};
    printf("%s %s", words[entry.kind - JEZYNAR_ONE], entry.digits);
    if (entry.kind == JEZYNAR_MANY)
        printf(" %lu", (unsigned long)entry.count);
    putchar('\n');
}

int main(void)
{
    static uint8_t image[JEZYNAR_IMAGE_LEN], list[LIST_LEN];
    static uint8_t entries[JEZYNAR_METERS * JEZYNAR_ENTRY_LEN], summary[JEZYNAR_SUMMARY_LEN];
    const struct jezynar_clock clock = {0.0, 2026, 10, 1, 0, 0};
    size_t len = fread(list, 1, sizeof list, stdin);
    if (ferror(stdin))
        return 1;
    jezynar_segment_new(image);
    uint32_t number = jezynar_open_number(jezynar_segment_open(image, list, len, 2400, false, 0.0));
    if (number != JEZYNAR_ACCEPTED) {
        printf("refused %lu\n", (unsigned long)number);
        return 0;
    }
    /* As many entries are lent as there can be meters, so that the search is not refused. */
    if (jezynar_search(image, &clock, 10000, entries, sizeof entries, summary) != JEZYNAR_ACCEPTED)
        return 1;
    struct jezynar_summary found = jezynar_read_summary(summary);
    printf("%lu entries, %lu probes\n", (unsigned long)found.entries, (unsigned long)found.probes);
    for (uint32_t i = 0; i < found.entries; i++)
        print_entry(jezynar_entry_at(entries, i));
    return 0;
}
