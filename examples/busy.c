/* Threads that count the words of texts, for a profile: each makes a text, splits it into words, keeps them in a tree,
   sorts them by how often they came, and writes a report, again and again. The argument is the number of threads. */
#include <pthread.h>
#include <stdint.h>
#include <stdio.h>
#include <stdlib.h>
#include <string.h>

#define LETTERS 26
#define WORDS 4000
#define MOST_THREADS 256

/* A word's tree: a node for each front of a word, with how often the word that ends there came. */
typedef struct Node {
    struct Node *next[LETTERS];
    long count;
} Node;

typedef struct {
    char word[16];
    long count;
} Counted;

typedef struct {
    Counted *items;
    long length, places;
} List;

static uint64_t random_number(uint64_t *seed) {
    *seed ^= *seed << 13;
    *seed ^= *seed >> 7;
    *seed ^= *seed << 17;
    return *seed;
}

/* Short words of few letters come often, as in a language. */
static char *make_text(uint64_t *seed) {
    char *text = malloc(WORDS * 9 + 1), *end = text;
    for (long i = 0; i < WORDS; i++) {
        for (uint64_t letters = 2 + random_number(seed) % 6; letters > 0; letters--) {
            uint64_t number = random_number(seed);
            *end++ = 'a' + (char)(number % (number % 5 ? 6 : LETTERS));
        }
        *end++ = ' ';
    }
    *end = '\0';
    return text;
}

static Node *new_node(void) {
    return calloc(1, sizeof(Node));
}

static void add_word(Node *tree, const char *word) {
    for (; *word; word++) {
        Node **next = &tree->next[*word - 'a'];
        if (*next == NULL) {
            *next = new_node();
        }
        tree = *next;
    }
    tree->count++;
}

static Node *count_words(char *text) {
    Node *tree = new_node();
    char *rest = text;
    for (char *word = strtok_r(text, " ", &rest); word; word = strtok_r(NULL, " ", &rest)) {
        add_word(tree, word);
    }
    return tree;
}

static void add_counted(List *list, const char *word, long depth, long count) {
    if (list->length == list->places) {
        list->places = list->places ? 2 * list->places : 16;
        list->items = realloc(list->items, (size_t)list->places * sizeof(Counted));
    }
    Counted *item = &list->items[list->length++];
    memcpy(item->word, word, (size_t)depth);
    item->word[depth] = '\0';
    item->count = count;
}

static void list_words(const Node *node, char *word, long depth, List *list) {
    if (node->count) {
        add_counted(list, word, depth, node->count);
    }
    for (int letter = 0; letter < LETTERS; letter++) {
        if (node->next[letter]) {
            word[depth] = 'a' + (char)letter;
            list_words(node->next[letter], word, depth + 1, list);
        }
    }
}

static void free_tree(Node *node) {
    for (int letter = 0; letter < LETTERS; letter++) {
        if (node->next[letter]) {
            free_tree(node->next[letter]);
        }
    }
    free(node);
}

static int by_count(const void *left, const void *right) {
    const Counted *a = left, *b = right;
    return a->count != b->count ? (a->count < b->count ? 1 : -1) : strcmp(a->word, b->word);
}

static uint64_t check_sum(const char *text, long length) {
    uint64_t sum = 14695981039346656037u;
    for (long i = 0; i < length; i++) {
        sum = (sum ^ (unsigned char)text[i]) * 1099511628211u;
    }
    return sum;
}

static uint64_t write_report(const List *list) {
    char line[64];
    uint64_t sum = 0;
    for (long i = 0; i < list->length; i++) {
        int length = snprintf(line, sizeof line, "%6ld %s\n", list->items[i].count, list->items[i].word);
        sum ^= check_sum(line, length);
    }
    return sum;
}

static uint64_t index_text(uint64_t *seed) {
    char word[16];
    List list = {NULL, 0, 0};
    char *text = make_text(seed);
    Node *tree = count_words(text);
    list_words(tree, word, 0, &list);
    qsort(list.items, (size_t)list.length, sizeof(Counted), by_count);
    uint64_t sum = write_report(&list);
    free_tree(tree);
    free(list.items);
    free(text);
    return sum;
}

static void *work(void *number) {
    uint64_t seed = 88172645463325252u + (uint64_t)number;
    for (volatile uint64_t sum = 0;;) {
        sum ^= index_text(&seed);
    }
    return NULL;
}

int main(int count, char **words) {
    long threads = count > 1 ? strtol(words[1], NULL, 10) : 4;
    pthread_t last;
    for (long i = 0; i < threads && i < MOST_THREADS; i++) {
        pthread_create(&last, NULL, work, (void *)i);
    }
    return pthread_join(last, NULL);
}
