/* Counts words in a tree, sorts them and writes them: what the picture of docs/TUTORIAL.md is of. */
#include <stdio.h>
#include <stdlib.h>
#include <string.h>
struct tree { struct tree *left, *right; char word[16]; int count; };
static struct tree *all[30000];
static int size;
static struct tree *added(const char *word) {
    struct tree *one = calloc(1, sizeof *one);
    strcpy(one->word, word);
    return all[size++] = one;
}
static struct tree *insert(struct tree *at, const char *word) {
    if (!at) at = added(word);
    int order = strcmp(word, at->word);
    if (order < 0) at->left = insert(at->left, word);
    else if (order > 0) at->right = insert(at->right, word);
    else at->count++;
    return at;
}
static int by_count(const void *a, const void *b) {
    const struct tree *one = *(struct tree **)a, *other = *(struct tree **)b;
    return one->count != other->count ? other->count - one->count : strcmp(one->word, other->word);
}
static void show(FILE *to) {
    for (int i = 0; i < size; i++) fprintf(to, "%8d %s\n", all[i]->count, all[i]->word);
}
int main(void) {
    struct tree *words = NULL;
    for (int round = 0; round < 10; round++) {
        for (int i = 0; i < 30000; i++) {
            char word[16];
            sprintf(word, "word%d", rand() % 9999);
            words = insert(words, word);
        }
        qsort(all, size, sizeof *all, by_count);
        FILE *to = fopen("/dev/null", "w");
        show(to);
        fclose(to);
    }
    return 0;
}
