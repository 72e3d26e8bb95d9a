/* memory.c: the calls of the library that take memory, on whatever allocator the host has, and under whatever limit of memory.
 *
 *   memory IMAGE CERTIFICATE LEAST MOST        `begun`, and a line for each call: its name, its answer, how much it wrote, and a sum of that
 *   memory refuse IMAGE CERTIFICATE LEAST MOST with tests/allocator.c linked in: refuses each growth of each call in turn. Each time it is
 *                                              BPF_NO_MEMORY, nothing is written and no block is lost; and then what it is with all */
#include <bpf.h>
#include <stdio.h>
#include <stdlib.h>
#include <string.h>

enum { IMAGE_MOST = 524288, TEXT_MOST = 1 << 22 };

/* The allocator's, where it is there. */
extern long own_blocks __attribute__((weak)), own_left __attribute__((weak));

static uint8_t image[IMAGE_MOST + 1], certificate[TEXT_MOST], made[TEXT_MOST];
static uint64_t words[IMAGE_MOST / 8 + IMAGE_MOST / 64 + 8];
static size_t image_len, certificate_len, wanted;
static uint32_t least, most;
static struct bpf_verdict verdict;
static struct bpf_refusal why;

static int32_t verify(void) {
    return bpf_verify(image, image_len, BPF_LITTLE, certificate, certificate_len, &verdict, &why);
}

static int32_t load(void) {
    return bpf_load(image, image_len, BPF_LITTLE, certificate, certificate_len, UINT32_MAX, words, sizeof words / sizeof *words, &verdict, &why);
}

static int32_t infer(void) {
    return bpf_infer(image, image_len, BPF_LITTLE, least, most, 0, (char *)made, sizeof made, &wanted, &why);
}

static int32_t search(void) {
    return bpf_infer(image, image_len, BPF_LITTLE, least, most, 1, (char *)made, sizeof made, &wanted, &why);
}

static int32_t harden(void) {
    return bpf_harden(image, image_len, BPF_LITTLE, most, NULL, made, sizeof made, &wanted, &why);
}

static int32_t certify(void) {
    struct bpf_certified told = {7, 7, 7, 7, 7, 7, 7};
    /* The image stands in front of its certificate. */
    int32_t answer = bpf_certify(image, image_len, BPF_LITTLE, most, NULL, made, IMAGE_MOST, (char *)made + IMAGE_MOST, sizeof made - IMAGE_MOST, &told, &why);
    if (answer == BPF_YES) wanted = told.image_len + told.certificate_len;
    return answer;
}

/* A filter of classic BPF, the longer the larger the image: loads behind an index, tests, shifts and a cell. */
static int32_t convert(void) {
    static struct { uint16_t code; uint8_t jt, jf; uint32_t k; } filter[4096];
    static const struct { uint16_t code; uint8_t jt; uint32_t k; } turn[] = {{0x61, 0, 7}, {0x48, 0, 14}, {0x1d, 1, 0}, {0x7c, 0, 0}, {0x02, 0, 7}};
    struct bpf_converted told = {7, 7, 7};
    size_t count = image_len / 24, at;
    int32_t answer;
    for (at = 0; at + 2 < count; at++) filter[at].code = turn[at % 5].code, filter[at].jt = turn[at % 5].jt, filter[at].k = turn[at % 5].k;
    for (; at < count; at++) filter[at].code = 0x16, filter[at].jt = 0, filter[at].k = 0;
    answer = bpf_convert(filter, count, BPF_BLOCKS, 4096, BPF_LITTLE, made, IMAGE_MOST, (char *)made + IMAGE_MOST, sizeof made - IMAGE_MOST, &told, &why);
    if (answer == BPF_YES) wanted = told.image_len + told.certificate_len;
    return answer;
}

static int32_t explain(void) {
    return bpf_explain(image, image_len, BPF_LITTLE, certificate, certificate_len, NULL, (char *)made, sizeof made, &wanted, &why);
}

static int32_t explain_infer(void) {
    return bpf_explain_search(image, image_len, BPF_LITTLE, least, most, 0, NULL, (char *)made, sizeof made, &wanted, &why);
}

static int32_t explain_search(void) {
    return bpf_explain_search(image, image_len, BPF_LITTLE, least, most, 1, NULL, (char *)made, sizeof made, &wanted, &why);
}

static int32_t explain_image(void) {
    return bpf_explain_image(image, image_len, BPF_LITTLE, 1, (char *)made, sizeof made, &wanted, &why);
}

static const struct {
    const char *name;
    int32_t (*call)(void);
} CALLS[] = {
    {"verify", verify}, {"load", load}, {"infer", infer}, {"search", search}, {"harden", harden}, {"certify", certify}, {"convert", convert},
    {"explain", explain}, {"explain_infer", explain_infer}, {"explain_search", explain_search},
    {"explain_image", explain_image},
};

enum { COUNT = sizeof CALLS / sizeof *CALLS };

/* A sum in which each byte's place counts. */
static uint64_t sum_of(const void *at, size_t len) {
    const uint8_t *bytes = at;
    uint64_t sum = len;
    while (len--) sum = sum * 31 + *bytes++;
    return sum;
}

/* What all answers hold. */
static uint64_t answers(void) {
    return sum_of(&verdict, sizeof verdict) ^ sum_of(&why, sizeof why) ^ sum_of(&wanted, sizeof wanted) ^ sum_of(made, sizeof made) ^ sum_of(words, sizeof words);
}

static void cleared(void) {
    memset(&verdict, 7, sizeof verdict), memset(&why, 7, sizeof why), memset(made, 7, sizeof made), memset(words, 7, sizeof words);
    wanted = 7;
}

static int tell(void) {
    for (int i = 0; i < COUNT; i++) {
        int32_t answer;
        cleared();
        answer = CALLS[i].call();
        printf("%s %d %zu %016llx\n", CALLS[i].name, answer, wanted, (unsigned long long)answers());
        fflush(stdout);
    }
    return 0;
}

static int refuse(void) {
    uint64_t nothing;
    if (!&own_blocks) return 2;
    cleared();
    nothing = answers();
    for (int i = 0; i < COUNT; i++) {
        long growths = 0, blocks = own_blocks;
        for (int32_t answer = BPF_NO_MEMORY; answer == BPF_NO_MEMORY; growths++) {
            cleared();
            own_left = growths;
            answer = CALLS[i].call();
            own_left = -1;
            if (own_blocks != blocks || (answer == BPF_NO_MEMORY) != (answers() == nothing)) {
                fprintf(stderr, "memory: %s with %ld growths: %d, %ld blocks are lost\n", CALLS[i].name, growths, answer, own_blocks - blocks);
                return 1;
            }
        }
        if (growths < 2) return 1;
        printf("%s: %ld growths\n", CALLS[i].name, growths - 1);
    }
    return 0;
}

static size_t read_file(const char *name, uint8_t *at, size_t room) {
    FILE *file = fopen(name, "rb");
    size_t len;
    if (!file) exit(3);
    len = fread(at, 1, room, file);
    fclose(file);
    return len;
}

/* Takes the stack that the calls need before there is a limit to meet: a page of it that the system refuses later ends the process, and is no answer. */
static void take_stack(void) {
    volatile char stack[640 << 10];
    for (size_t at = 0; at < sizeof stack; at += 4096) stack[at] = 0;
}

int main(int argc, char **argv) {
    int refuses = argc > 1 && !strcmp(argv[1], "refuse");
    char **word = argv + 1 + refuses;
    take_stack();
    if (argc != 5 + refuses) return 2;
    /* What is read takes memory, too, so that too narrow a limit ends the process here. */
    image_len = read_file(word[0], image, sizeof image);
    certificate_len = read_file(word[1], certificate, sizeof certificate);
    puts("begun");
    fflush(stdout);
    least = (uint32_t)atoi(word[2]), most = (uint32_t)atoi(word[3]);
    return refuses ? refuse() : tell();
}
