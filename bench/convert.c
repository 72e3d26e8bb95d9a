/* convert.c: how long it takes to convert a filter and to judge what came out. Usage: convert EXPRESSION LEN ROUNDS. It prints, divided by tabs, the number
 * of classic instructions, and microseconds of processor time: of bpf_convert alone, and of bpf_convert with bpf_load; the medians of so many rounds. */
#include <bpf.h>
#include <pcap/pcap.h>
#include <stdio.h>
#include <stdlib.h>
#include <time.h>

enum { MOST = 100000 };

static char image[BPF_IMAGE_MOST], text[1 << 22];
static uint64_t words[1 << 17];
static double alone[MOST], both[MOST];

static double now(void) {
    struct timespec t;
    clock_gettime(CLOCK_PROCESS_CPUTIME_ID, &t);
    return t.tv_sec * 1e6 + t.tv_nsec / 1e3;
}

static int by_size(const void *a, const void *b) {
    double x = *(const double *)a, y = *(const double *)b;
    return (x > y) - (x < y);
}

int main(int argc, char **argv) {
    int rounds = argc == 4 ? atoi(argv[3]) : 0;
    uint32_t size = argc == 4 ? (uint32_t)atoi(argv[2]) : 0;
    struct bpf_program filter;
    pcap_t *dead = pcap_open_dead(DLT_EN10MB, 262144);
    if (rounds < 1 || rounds > MOST) return 2;
    if (!dead || pcap_compile(dead, &filter, argv[1], 1, PCAP_NETMASK_UNKNOWN)) return 2;
    for (int i = 0; i < rounds; i++) {
        struct bpf_converted made;
        double start = now(), converted;
        if (bpf_convert(filter.bf_insns, filter.bf_len, BPF_BLOCKS, size, BPF_LITTLE, image, sizeof image, text, sizeof text, &made, NULL) != BPF_YES) return 1;
        converted = now();
        if (bpf_load(image, made.image_len, BPF_LITTLE, text, made.certificate_len, UINT32_MAX, words, bpf_loaded_size(made.image_len), NULL, NULL) != BPF_YES)
            return 1;
        alone[i] = converted - start;
        both[i] = now() - start;
    }
    qsort(alone, rounds, sizeof *alone, by_size);
    qsort(both, rounds, sizeof *both, by_size);
    printf("%u\t%.1f\t%.1f\n", filter.bf_len, alone[rounds / 2], both[rounds / 2]);
    return 0;
}
