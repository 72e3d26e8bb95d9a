/* stack.c IMAGE CERTIFICATE..: each call in a thread with the stack that docs/HOSTS.md says is enough: 16 KB for preparing and running, 64 KB for
 * judging, 128 KB for inferring and for converting, 256 KB for hardening, for certifying, for judging notes and for searching deeply, 512 KB for explaining. Beside the images that are named one of the
 * greatest length is tried, and one whose run comes to eight frames. */
#include <bpf.h>
#include <pthread.h>
#include <stdio.h>
#include <stdlib.h>
#include <string.h>
#include <sys/mman.h>
#include <unistd.h>

enum { LITTLE_STACK = 16 << 10, JUDGING_STACK = 64 << 10, INFERRING_STACK = 128 << 10, HARDENING_STACK = 256 << 10, EXPLAINING_STACK = 512 << 10 };
enum { SLOTS = 65536 };

struct job {
    uint8_t *image, *certificate;
    size_t image_len, certificate_len;
    uint64_t *words, *handle;
    struct bpf_verdict verdict;
    int wrong;
};

static void *judge(void *at) {
    struct job *job = at;
    struct bpf_refusal why;
    job->wrong |= bpf_verify(job->image, job->image_len, BPF_LITTLE, job->certificate, job->certificate_len, &job->verdict, &why) != BPF_YES;
    return NULL;
}

static void *load(void *at) {
    struct job *job = at;
    job->wrong |= bpf_load(job->image, job->image_len, BPF_LITTLE, job->certificate, job->certificate_len, UINT32_MAX, job->handle,
                           bpf_loaded_size(job->image_len), NULL, NULL) != BPF_YES;
    return NULL;
}

static void *infer(void *at) {
    struct job *job = at;
    struct bpf_refusal why;
    size_t wanted;
    job->wrong |= bpf_infer(job->image, job->image_len, BPF_LITTLE, job->verdict.least, job->verdict.most, 0, NULL, 0, &wanted, &why) == BPF_BAD_CALL;
    return NULL;
}

/* The longest filter that there is, with an index and a test in turn. */
static void *convert(void *at) {
    static struct { uint16_t code; uint8_t jt, jf; uint32_t k; } filter[4096];
    struct job *job = at;
    struct bpf_converted told;
    size_t i;
    for (i = 0; i < 4096; i++) filter[i].code = i < 4094 ? (i % 2 ? 0x1d : 0x48) : 0x16, filter[i].jt = i < 4094 && i % 2, filter[i].k = i < 4094 ? i % 64 : 0;
    job->wrong |= bpf_convert(filter, 4096, BPF_BLOCKS, 4096, BPF_LITTLE, NULL, 0, NULL, 0, &told, NULL) != BPF_TOO_SMALL;
    return NULL;
}

static void *harden(void *at) {
    static const uint8_t context[4096];
    struct job *job = at;
    struct bpf_refusal why;
    size_t wanted;
    struct bpf_certified told;
    struct bpf_following shown;
    uint32_t trap = 0;
    char notes[128];
    int notes_len = snprintf(notes, sizeof notes, "bpfnotes 2 length %u turns 1 untouched 0\n0 old 0\n", (unsigned)job->verdict.least);
    job->wrong |= bpf_harden(job->image, job->image_len, BPF_LITTLE, job->verdict.least, NULL, NULL, 0, &wanted, &why) == BPF_BAD_CALL;
    job->wrong |= bpf_certify(job->image, job->image_len, BPF_LITTLE, job->verdict.least, NULL, NULL, 0, NULL, 0, &told, &why) == BPF_BAD_CALL;
    job->wrong |= bpf_follows(job->image, job->image_len, job->image, job->image_len, BPF_LITTLE, notes, (size_t)notes_len, job->certificate,
                              job->certificate_len, &shown, &why) != BPF_NO;
    job->wrong |= why.kind != BPF_MISMATCH;
    job->wrong |= bpf_ends_at_trap(job->image, job->image_len, BPF_LITTLE, notes, (size_t)notes_len, context, job->verdict.least, 1000000, &trap,
                                   &why) != BPF_YES;
    job->wrong |= trap != 1;
    job->wrong |= bpf_infer(job->image, job->image_len, BPF_LITTLE, job->verdict.least, job->verdict.most, 1, NULL, 0, &wanted, &why) == BPF_BAD_CALL;
    return NULL;
}

static void *explain(void *at) {
    struct job *job = at;
    struct bpf_refusal why;
    size_t wanted;
    for (uint32_t aspect = BPF_LISTING; aspect <= BPF_GRAPH; aspect++) {
        const struct bpf_shown shown = {aspect, 0, NULL, 0};
        job->wrong |= bpf_explain(job->image, job->image_len, BPF_LITTLE, job->certificate, job->certificate_len, &shown, NULL, 0, &wanted, &why) != BPF_TOO_SMALL;
        job->wrong |= bpf_explain_search(job->image, job->image_len, BPF_LITTLE, job->verdict.least, job->verdict.most, 0, &shown, NULL, 0, &wanted, &why) != BPF_TOO_SMALL;
    }
    job->wrong |= bpf_explain(job->image, job->image_len, BPF_LITTLE, "bpfcert", 7, NULL, NULL, 0, &wanted, &why) != BPF_TOO_SMALL;
    job->wrong |= bpf_explain_image(job->image, job->image_len, BPF_LITTLE, 0, NULL, 0, &wanted, &why) != BPF_TOO_SMALL;
    job->wrong |= bpf_explain_image(job->image, job->image_len - 1, BPF_LITTLE, 0, NULL, 0, &wanted, &why) != BPF_TOO_SMALL;
    return NULL;
}

static void *explain_deeply(void *at) {
    struct job *job = at;
    struct bpf_refusal why;
    size_t wanted;
    for (uint32_t aspect = BPF_LISTING; aspect <= BPF_GRAPH; aspect++) {
        const struct bpf_shown shown = {aspect, 0, NULL, 0};
        job->wrong |= bpf_explain_search(job->image, job->image_len, BPF_LITTLE, job->verdict.least, job->verdict.most, 1, &shown, NULL, 0, &wanted, &why) != BPF_TOO_SMALL;
        job->wrong |= bpf_explain_search(job->image, job->image_len, BPF_LITTLE, 0, 0, 1, &shown, NULL, 0, &wanted, &why) != BPF_TOO_SMALL;
    }
    return NULL;
}

static void *run(void *at) {
    static const uint8_t context[4096];
    struct job *job = at;
    struct bpf_outcome outcome = {0, 0, 0, 0, 0};
    uint64_t result = 0, again = 0;
    size_t len = bpf_prepared_size(job->image_len);
    job->wrong |= bpf_prepare(job->image, job->image_len, BPF_LITTLE, job->words, len) != BPF_YES;
    job->wrong |= bpf_run_checked(job->words, len, context, job->verdict.least, &result) != BPF_YES;
    job->wrong |= bpf_run_loaded(job->handle, bpf_loaded_size(job->image_len), context, job->verdict.least, &again) != BPF_YES || again != result;
    job->wrong |= bpf_run(job->image, job->image_len, BPF_LITTLE, context, job->verdict.least, 1000000, &outcome) != BPF_YES;
    job->wrong |= outcome.kind != BPF_DONE || outcome.value != result;
    outcome.value = ~result;
    job->wrong |= bpf_run_prepared(job->words, len, context, job->verdict.least, 1000000, &outcome) != BPF_YES || outcome.value != result;
    return NULL;
}

/* A stack of one's own, with a page in front of it that can't be written: the C library may hand out a greater one that a thread left. */
static void in_thread(void *(*call)(void *), struct job *job, size_t stack) {
    pthread_attr_t attributes;
    pthread_t thread;
    size_t page = (size_t)sysconf(_SC_PAGESIZE);
    uint8_t *all = mmap(NULL, page + stack, PROT_READ | PROT_WRITE, MAP_PRIVATE | MAP_ANONYMOUS, -1, 0);
    if (all == MAP_FAILED || mprotect(all, page, PROT_NONE)) abort();
    if (pthread_attr_init(&attributes) || pthread_attr_setstack(&attributes, all + page, stack) || pthread_create(&thread, &attributes, call, job)) abort();
    if (pthread_join(thread, NULL) || pthread_attr_destroy(&attributes) || munmap(all, page + stack)) abort();
}

static void try_all(struct job *job, const char *name) {
    job->words = malloc(8 * bpf_prepared_size(job->image_len));
    job->handle = malloc(8 * bpf_loaded_size(job->image_len));
    if (!job->words || !job->handle) abort();
    in_thread(judge, job, JUDGING_STACK);
    in_thread(load, job, JUDGING_STACK);
    in_thread(infer, job, INFERRING_STACK);
    in_thread(convert, job, INFERRING_STACK);
    in_thread(harden, job, HARDENING_STACK);
    in_thread(explain, job, EXPLAINING_STACK);
    in_thread(explain_deeply, job, EXPLAINING_STACK);
    in_thread(run, job, LITTLE_STACK);
    free(job->words), free(job->handle);
    if (!job->wrong) return;
    fprintf(stderr, "stack: %s: a wrong answer\n", name);
    exit(1);
}

static uint8_t *read_file(const char *name, size_t *len) {
    FILE *file = fopen(name, "rb");
    uint8_t *all = malloc(SLOTS * 8);
    if (!file || !all) abort();
    *len = fread(all, 1, SLOTS * 8, file);
    fclose(file);
    return all;
}

/* 65,535 times r0 = 0, and exit. */
static void try_longest(void) {
    static uint8_t image[SLOTS * 8];
    static char certificate[] = "bpfcert 1 0 65536\nfn 0 1 *\nat 0 65536\nend\n";
    struct job job = {image, (uint8_t *)certificate, sizeof image, sizeof certificate - 1, NULL, NULL, {0, 0, 0}, 0};
    for (size_t slot = 0; slot < SLOTS; slot++) image[8 * slot] = slot + 1 < SLOTS ? 0xb7 : 0x95;
    try_all(&job, "the longest image");
}

/* Eight functions, of which seven call the next one: a run comes to the deepest frame. */
static void try_deepest(void) {
    static uint8_t image[16 * 8];
    static char certificate[512];
    struct job job = {image, (uint8_t *)certificate, sizeof image, 0, NULL, NULL, {0, 0, 0}, 0};
    size_t len = (size_t)sprintf(certificate, "bpfcert 1 0 16\n");
    for (unsigned function = 0; function < 8; function++) {
        static const uint8_t call[8] = {0x85, 0x10, 0, 0, 1, 0, 0, 0}, zero[8] = {0xb7};
        memcpy(image + 16 * function, function < 7 ? call : zero, 8);
        image[16 * function + 8] = 0x95;
        len += (size_t)sprintf(certificate + len, "fn %u %u *\nat %u %u\n", 2 * function, 8 - function, 2 * function, 16 - 2 * function);
    }
    job.certificate_len = len + (size_t)sprintf(certificate + len, "end\n");
    try_all(&job, "the deepest calls");
}

int main(int argc, char **argv) {
    for (int i = 1; i + 1 < argc; i += 2) {
        struct job job = {0};
        job.image = read_file(argv[i], &job.image_len);
        job.certificate = read_file(argv[i + 1], &job.certificate_len);
        try_all(&job, argv[i]);
        free(job.image), free(job.certificate);
    }
    try_longest();
    try_deepest();
    return 0;
}
