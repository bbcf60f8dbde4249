/* Counts the words of a text in four threads, and prints them in the order of the alphabet.
 *
 *     cc words.c $(pkg-config --cflags --libs clsm) -pthread -o words && ./words "some text"
 *
 * A key is a number. Here it has the letters of a word, the first one in its highest byte, so that
 * numbers are in the order of words. Words are counted by their first eight letters. */
#include <clsm.h>

#include <inttypes.h>
#include <pthread.h>
#include <stdio.h>
#include <string.h>

enum { THREADS = 4, LETTERS = 8 };

static uint64_t key_of(const char *word, size_t length) {
    uint64_t key = 0;
    for (size_t i = 0; i < LETTERS; i++) key = key << 8 | (i < length ? (unsigned char)word[i] : 0);
    return key;
}

static void print_word(uint64_t key, uint64_t count) {
    for (int shift = 56; shift >= 0 && (key >> shift & 0xFF); shift -= 8)
        putchar((int)(key >> shift & 0xFF));
    printf(" %" PRIu64 "\n", count);
}

struct job {
    clsm_store *store;
    const char *text;
    int own, code;
};

/* Counts every fourth word, with a caller of its own. No addition of another thread is lost. */
static void *count_words(void *argument) {
    struct job *job = argument;
    clsm_caller *caller;
    job->code = clsm_caller_open(job->store, &caller);
    if (job->code) return NULL;
    const char *at = job->text + strspn(job->text, " ");
    for (int number = 0; *at && !job->code; number++) {
        size_t length = strcspn(at, " ");
        if (number % THREADS == job->own) job->code = clsm_add(caller, key_of(at, length), 1, NULL);
        at += length;
        at += strspn(at, " ");
    }
    clsm_caller_close(caller);
    return NULL;
}

/* Prints all counts as they are at one moment. */
static int print_counts(clsm_store *store) {
    clsm_caller *caller;
    clsm_scan *scan;
    clsm_row row;
    int code = clsm_caller_open(store, &caller);
    if (code) return code;
    code = clsm_scan_open(caller, 0, UINT64_MAX, &scan);
    if (!code) {
        while ((code = clsm_scan_next(scan, &row)) == CLSM_OK)
            print_word(row.key, row.value.words[0]);
        clsm_scan_close(scan);
    }
    clsm_caller_close(caller);
    return code == CLSM_DONE ? CLSM_OK : code;
}

int main(int argc, char **argv) {
    const char *text = "the dog and the fox and the lazy cat saw the other dog on and off";
    struct job jobs[THREADS];
    pthread_t threads[THREADS];
    clsm_store *store;
    int code = clsm_open(NULL, &store);
    if (code) return fprintf(stderr, "words: %s\n", clsm_strerror(code)), 1;
    for (int i = 0; i < THREADS; i++) {
        jobs[i] = (struct job){store, argc > 1 ? argv[1] : text, i, CLSM_OK};
        if (pthread_create(&threads[i], NULL, count_words, &jobs[i])) return 1;
    }
    for (int i = 0; i < THREADS; i++) {
        pthread_join(threads[i], NULL);
        if (jobs[i].code) code = jobs[i].code;
    }
    if (!code) code = print_counts(store);
    if (!code) code = clsm_close(store);
    if (code) fprintf(stderr, "words: %s\n", clsm_strerror(code));
    return code != CLSM_OK;
}
