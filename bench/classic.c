/* classic.c: how long a converted filter takes for a packet, beside libpcap's own bpf_filter(). Usage: classic EXPRESSION IMAGE CERT LEN.
 * With --ddd EXPRESSION it prints what `tcpdump -ddd -y EN10MB EXPRESSION` does. Else it prints nanoseconds a packet, the medians of rounds in turn: of
 * libpcap, of the image on packets that lie in blocks already, and of the image with each packet copied into a block. */
#include <bpf.h>
#include <pcap/pcap.h>
#include <stdio.h>
#include <stdlib.h>
#include <string.h>
#include <time.h>

enum { PACKETS = 64, ROUNDS = 15, TURNS = 2000, MOST = 4096 };

static uint8_t blocks[PACKETS][MOST], image[1 << 20];
static uint32_t lens[PACKETS];
static char certificate[1 << 22];
static uint64_t words[1 << 17];

static size_t read_file(const char *name, void *at, size_t room) {
    FILE *file = fopen(name, "rb");
    size_t len = file ? fread(at, 1, room, file) : 0;
    if (!len) exit(3);
    fclose(file);
    return len;
}

static struct bpf_program compiled(const char *expression) {
    struct bpf_program made;
    pcap_t *dead = pcap_open_dead(DLT_EN10MB, 262144);
    if (!dead || pcap_compile(dead, &made, expression, 1, PCAP_NETMASK_UNKNOWN)) exit(2);
    return made;
}

/* TCP over IPv4 from and to some ports, UDP, and what isn't IP. */
static uint32_t make_packet(uint8_t *at, unsigned k) {
    static const uint8_t ports[] = {80, 53, 22, 25}, hosts[] = {1, 5, 7, 9};
    uint32_t len = 60 + k % 8 * 90;
    memset(at, k, len);
    memcpy(at + 12, k % 7 == 6 ? "\x08\x06" : "\x08\x00", 2);
    at[14] = 0x45;
    at[16] = (len - 14) >> 8, at[17] = len - 14;
    at[20] = at[21] = 0;
    at[23] = k % 3 == 2 ? 17 : 6;
    memcpy(at + 26, "\xc0\x00\x02", 3), at[29] = hosts[k % 4];
    memcpy(at + 30, "\xc0\x00\x02", 3), at[33] = hosts[k / 4 % 4];
    at[34] = 0x9c, at[35] = 0x40, at[36] = 0, at[37] = ports[k % 4];
    at[46] = 0x50;
    return len;
}

static double now(void) {
    struct timespec t;
    clock_gettime(CLOCK_PROCESS_CPUTIME_ID, &t);
    return t.tv_sec * 1e9 + t.tv_nsec;
}

static int by_size(const void *a, const void *b) {
    double x = *(const double *)a, y = *(const double *)b;
    return (x > y) - (x < y);
}

static double median(double *times) {
    qsort(times, ROUNDS, sizeof *times, by_size);
    return times[ROUNDS / 2] / TURNS / PACKETS;
}

/* One round of each way: the three sums of answers must be one. */
static void round_of(const struct bpf_program *filter, uint32_t length, double *times, uint64_t *sums) {
    static uint8_t block[MOST];
    uint64_t value = 0;
    double start = now();
    for (int turn = 0; turn < TURNS; turn++)
        for (int k = 0; k < PACKETS; k++) sums[0] += bpf_filter(filter->bf_insns, blocks[k] + 8, lens[k], lens[k]);
    times[0] = now() - start;
    start = now();
    for (int turn = 0; turn < TURNS; turn++)
        for (int k = 0; k < PACKETS; k++) {
            bpf_run_loaded(words, sizeof words / sizeof *words, blocks[k], length, &value);
            sums[1] += value;
        }
    times[1] = now() - start;
    start = now();
    for (int turn = 0; turn < TURNS; turn++)
        for (int k = 0; k < PACKETS; k++) {
            memcpy(block, blocks[k], 8 + lens[k]);
            bpf_run_loaded(words, sizeof words / sizeof *words, block, length, &value);
            sums[2] += value;
        }
    times[2] = now() - start;
}

int main(int argc, char **argv) {
    if (argc == 3 && !strcmp(argv[1], "--ddd")) {
        struct bpf_program made = compiled(argv[2]);
        bpf_dump(&made, 3);
        return 0;
    }
    if (argc != 5) return 2;
    struct bpf_program filter = compiled(argv[1]);
    uint32_t length = strtoul(argv[4], NULL, 10);
    size_t image_len = read_file(argv[2], image, sizeof image), certificate_len = read_file(argv[3], certificate, sizeof certificate);
    struct bpf_verdict verdict;
    struct bpf_refusal refusal;
    if (length > MOST || bpf_load(image, image_len, BPF_LITTLE, certificate, certificate_len, UINT32_MAX, words, sizeof words / sizeof *words, &verdict, &refusal) != BPF_YES) return 1;
    for (unsigned k = 0; k < PACKETS; k++) {
        lens[k] = make_packet(blocks[k] + 8, k);
        if (lens[k] > length - 8) lens[k] = length - 8;
        memcpy(blocks[k], &(uint64_t){lens[k]}, 8);
    }
    double times[3][ROUNDS], one[3];
    uint64_t sums[3] = {0, 0, 0};
    for (int round = 0; round < ROUNDS; round++) {
        round_of(&filter, length, one, sums);
        for (int way = 0; way < 3; way++) times[way][round] = one[way];
    }
    printf("%u\t%zu\t%u\t%.1f\t%.1f\t%.1f\t%s\n", filter.bf_len, image_len / 8, verdict.bound, median(times[0]), median(times[1]), median(times[2]),
        sums[0] == sums[1] && sums[1] == sums[2] ? "the same answers" : "OTHER ANSWERS");
    return 0;
}
