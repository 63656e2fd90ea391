/* How often each word of a text occurs: a table of chains by a hash, whose entries are sorted at the end. */
#include <ctype.h>
#include <stdio.h>
#include <stdlib.h>
#include <string.h>

#define CHAINS 64

struct entry {
    struct entry *next;
    int count;
    char word[];
};

static struct entry *chains[CHAINS];
static int entries;

static const char text[] =
    "It was the best of times, it was the worst of times, it was the age of wisdom, it was the age of "
    "foolishness, it was the epoch of belief, it was the epoch of incredulity, it was the season of Light, "
    "it was the season of Darkness, it was the spring of hope, it was the winter of despair.";

static unsigned hash_of(const char *word)
{
    unsigned hash = 2166136261u;
    for (; *word; word++)
        hash = (hash ^ (unsigned char)*word) * 16777619u;
    return hash;
}

static struct entry *entry_of(const char *word)
{
    struct entry **link = &chains[hash_of(word) % CHAINS];
    while (*link && strcmp((*link)->word, word))
        link = &(*link)->next;
    if (!*link) {
        struct entry *entry = malloc(sizeof *entry + strlen(word) + 1);
        if (!entry)
            abort();
        entry->next = 0;
        entry->count = 0;
        strcpy(entry->word, word);
        *link = entry;
        entries++;
    }
    return *link;
}

static int read_word(const char **at, char *word, int room)
{
    int length = 0;
    while (**at && !isalpha((unsigned char)**at))
        ++*at;
    for (; isalpha((unsigned char)**at); ++*at)
        if (length < room - 1)
            word[length++] = tolower((unsigned char)**at);
    word[length] = 0;
    return length;
}

static int compare(const void *left, const void *right)
{
    const struct entry *first = *(struct entry *const *)left, *second = *(struct entry *const *)right;
    if (first->count != second->count)
        return second->count - first->count;
    return strcmp(first->word, second->word);
}

int main(void)
{
    char word[32];
    for (const char *at = text; read_word(&at, word, sizeof word);)
        entry_of(word)->count++;
    struct entry **sorted = malloc(entries * sizeof *sorted);
    if (!sorted)
        abort();
    int filled = 0;
    for (int chain = 0; chain < CHAINS; chain++)
        for (struct entry *entry = chains[chain]; entry; entry = entry->next)
            sorted[filled++] = entry;
    qsort(sorted, filled, sizeof *sorted, compare);
    for (int at = 0; at < filled; at++)
        printf("%3d %s\n", sorted[at]->count, sorted[at]->word);
    return 0;
}
