/* natural.c: a program of tests/natural on contexts, through the library, as C of `bpf to-c`, and natively. Built with TEXT, the name of the file that
 * `bpf to-c --name filter` wrote. Usage: natural IMAGE CERT CONTEXTS SIZE RUNS. CONTEXTS has contexts of SIZE bytes, one behind the other. Prints for
 * each way its name, the number of calls, and the seconds of processor time. */
#include <bpf.h>
#include <stdio.h>
#include <stdlib.h>
#include <time.h>
#include TEXT

unsigned long long prog(const unsigned char *, unsigned long long);

static uint8_t *contexts;
static uint64_t *words;
static size_t size, words_len;

static uint8_t *read_file(const char *name, size_t *len) {
    FILE *file = fopen(name, "rb");
    uint8_t *at = malloc(1 << 20);
    if (!file || !at) exit(3);
    *len = fread(at, 1, 1 << 20, file);
    fclose(file);
    return at;
}

static uint64_t natively(const uint8_t *context) {
    return prog(context, size);
}

static uint64_t loaded(const uint8_t *context) {
    uint64_t value = 0;
    if (bpf_run_loaded(words, words_len, context, size, &value) != BPF_YES) exit(1);
    return value;
}

static uint64_t compiled(const uint8_t *context) {
    return filter(context, size);
}

static uint64_t time_it(const char *name, uint64_t (*way)(const uint8_t *), size_t count, long runs) {
    clock_t start = clock();
    uint64_t sum = 0;
    for (long i = 0; i < runs; i++)
        for (size_t k = 0; k < count; k++) sum = 31 * sum + way(contexts + k * size);
    printf("%s %ld %.6f\n", name, runs * (long)count, (double)(clock() - start) / CLOCKS_PER_SEC);
    return sum;
}

int main(int argc, char **argv) {
    size_t image_len, certificate_len, contexts_len;
    if (argc != 6) return 2;
    uint8_t *image = read_file(argv[1], &image_len), *certificate = read_file(argv[2], &certificate_len);
    contexts = read_file(argv[3], &contexts_len);
    size = (size_t)atol(argv[4]);
    words_len = bpf_loaded_size(image_len);
    words = malloc(8 * words_len);
    if (!words || !size) return 3;
    if (bpf_load(image, image_len, BPF_LITTLE, certificate, certificate_len, UINT32_MAX, words, words_len, NULL, NULL) != BPF_YES) return 1;
    size_t count = contexts_len / size;
    long runs = atol(argv[5]);
    uint64_t wanted = time_it("native", natively, count, runs);
    if (time_it("to-c", compiled, count, runs) != wanted || time_it("bpf_run_loaded", loaded, count, runs) != wanted) return 1;
    return 0;
}
