/* Writes the same log as log_bench, with printf. The argument is how many entries to write. */
#include <stdio.h>
#include <stdlib.h>

struct entry {
    unsigned slot, thread, handle, index, actor;
    unsigned long long old, new, word;
    long long status;
};

int main(int argc, char **argv) {
    unsigned long count = argc > 1 ? strtoul(argv[1], NULL, 10) : 3;
    struct entry *entries = malloc(count * sizeof *entries);
    if (entries == NULL)
        return 1;
    for (unsigned long i = 0; i < count; i++)
        entries[i] = (struct entry){1, 0, 1, 1, 2, 5, 0, 5, 0};
    printf("log all\n");
    for (unsigned long i = 0; i < count; i++) {
        const struct entry *e = &entries[i];
        printf("%lu turn %u %u | cas %u %u %llu %llu | word %llu | die %u %lld exit\n", i + 1, e->slot, e->thread,
               e->handle, e->index, e->old, e->new, e->word, e->actor, e->status);
    }
    printf("done given\n");
    free(entries);
    return 0;
}
