/* capture.c: runs a filter of libpcap over the packets of a pcap file, as `tcpdump -r FILE EXPRESSION` does, by a program that was checked.
 *
 *   capture FILE EXPRESSION    where it was built with libpcap: -DWITH_PCAP $(pcap-config --cflags --libs)
 *   capture FILE               the filter is what `tcpdump -ddd -r FILE EXPRESSION` prints, on standard input
 *
 * Standard output gets the number of each packet that passes, from 1, on a line of its own; then, on standard error, comes how many there are.
 *
 * A filter sees no byte that the capture has cut off. So a block ends where the captured bytes of its packet do, and there is a program for each length
 * that comes, made when the first such packet does: that takes microseconds, since nothing is searched. Contexts have at most 4,096 bytes, so of a longer
 * packet the filter sees the first 4,088.
 */
#ifdef WITH_PCAP
#define _DEFAULT_SOURCE /* pcap.h wants u_int and the like */
#include <pcap/pcap.h>
#endif
#include <bpf.h>
#include <errno.h>
#include <stdio.h>
#include <stdlib.h>
#include <string.h>

/* The bytes in front of a block that hold the packet's length, and how large a block may be. */
enum { LENGTH_BYTES = 8, GREATEST_BLOCK = 4096 };

/* The most instructions of a filter. */
enum { GREATEST_FILTER = 4096 };

/* An instruction of classic BPF, as `struct sock_filter` has it. */
struct instruction {
    uint16_t code;
    uint8_t jt, jf;
    uint32_t k;
};

struct filter {
    struct instruction list[GREATEST_FILTER];
    size_t count;
};

/* What a filter became for blocks of one size: what is promised of it, and its program, ready to run. */
struct program {
    struct bpf_verdict verdict;
    uint64_t *words;
    size_t words_len;
};

static void fail(const char *what, const char *name) {
    fprintf(stderr, "capture: %s %s: %s\n", what, name, strerror(errno));
    exit(3);
}

static void refuse(const char *why) {
    fprintf(stderr, "capture: %s\n", why);
    exit(1);
}

/* ---- the filter */

#ifdef WITH_PCAP
/* Compiles an expression for the link type of a file. */
static void compile(struct filter *filter, const char *name, const char *expression) {
    char error[PCAP_ERRBUF_SIZE];
    struct bpf_program made;
    pcap_t *file = pcap_open_offline(name, error);
    if (!file) refuse(error);
    if (pcap_compile(file, &made, expression, 1, 0)) refuse(pcap_geterr(file)); /* no netmask, as tcpdump has it for a file */
    if (made.bf_len > GREATEST_FILTER) refuse("the filter has more than 4,096 instructions");
    filter->count = made.bf_len;
    memcpy(filter->list, made.bf_insns, made.bf_len * sizeof *made.bf_insns);
    pcap_freecode(&made);
    pcap_close(file);
}
#else
static void compile(struct filter *filter, const char *name, const char *expression) {
    (void)filter, (void)name, (void)expression;
    refuse("it was built without libpcap: give the filter on standard input, as tcpdump -ddd prints it");
}
#endif

/* Reads what `tcpdump -ddd` prints: a line that counts the instructions, and for each a line of four numbers. */
static void read_filter(struct filter *filter, FILE *from) {
    size_t count, at;
    if (fscanf(from, "%zu", &count) != 1 || count > GREATEST_FILTER) refuse("the filter doesn't begin with how many instructions it has, up to 4,096");
    for (at = 0; at < count; at++) {
        unsigned code, jt, jf, k;
        if (fscanf(from, "%u %u %u %u", &code, &jt, &jf, &k) != 4 || code > UINT16_MAX || jt > UINT8_MAX || jf > UINT8_MAX)
            refuse("an instruction of the filter isn't four numbers");
        filter->list[at] = (struct instruction){(uint16_t)code, (uint8_t)jt, (uint8_t)jf, (uint32_t)k};
    }
    filter->count = count;
}

/* ---- its programs */

static void expect_yes(int32_t answer, const struct bpf_refusal *why) {
    char text[256];
    if (answer == BPF_YES) return;
    if (answer == BPF_NO) {
        bpf_refusal_text(why->kind, why->number, text, sizeof text);
        fprintf(stderr, "capture: refused by %c%u at %s %llu: %s\n", (int)why->kind, (unsigned)why->number,
                why->kind == BPF_CLASSIC ? "instruction" : "slot", (unsigned long long)why->place, text);
        exit(1);
    }
    bpf_answer_text(answer, text, sizeof text);
    fprintf(stderr, "capture: %s\n", text);
    exit(3);
}

/* Makes an image of the filter for blocks of one size, has its certificate checked, and prepares the program. */
static void make(struct program *program, const struct filter *filter, uint32_t size) {
    struct bpf_converted told;
    struct bpf_refusal why;
    size_t room = bpf_convert_size(filter->count);
    char *image = malloc(BPF_IMAGE_MOST), *certificate = malloc(room);
    if (!image || !certificate) fail("no memory for", "an image");
    expect_yes(bpf_convert(filter->list, filter->count, BPF_BLOCKS, size, bpf_order_here(), image, BPF_IMAGE_MOST, certificate, room, &told, &why), &why);
    expect_yes(bpf_verify(image, told.image_len, bpf_order_here(), certificate, told.certificate_len, &program->verdict, &why), &why);
    program->words_len = bpf_prepared_size(told.image_len);
    program->words = malloc(8 * program->words_len);
    if (!program->words) fail("no memory for", "a program");
    expect_yes(bpf_prepare(image, told.image_len, bpf_order_here(), program->words, program->words_len), &why);
    free(image), free(certificate);
}

/* The program for blocks of one size. */
static const struct program *program_for(const struct filter *filter, uint32_t size) {
    static struct program programs[GREATEST_BLOCK + 1];
    if (!programs[size].words) make(&programs[size], filter, size);
    return &programs[size];
}

/* ---- the packets */

/* A packet: its bytes, how many of them were captured, and how many it had. */
struct packet {
    const uint8_t *at;
    size_t captured;
    uint64_t length;
};

/* Whether the filter accepts a packet: the block has exactly the size that the program was judged for. */
static int passes(const struct filter *filter, const struct packet *packet, uint32_t *bound) {
    uint8_t block[GREATEST_BLOCK];
    size_t room = GREATEST_BLOCK - LENGTH_BYTES, taken = packet->captured < room ? packet->captured : room;
    const struct program *program = program_for(filter, (uint32_t)(LENGTH_BYTES + taken));
    uint64_t result = 0;
    memcpy(block, &packet->length, LENGTH_BYTES); /* the image's order is this machine's */
    memcpy(block + LENGTH_BYTES, packet->at, taken);
    expect_yes(bpf_run_checked(program->words, program->words_len, block, LENGTH_BYTES + taken, &result), NULL);
    if (program->verdict.bound > *bound) *bound = program->verdict.bound;
    return result != 0;
}

static uint32_t number_at(const uint8_t *at, int big) {
    return big ? (uint32_t)at[0] << 24 | (uint32_t)at[1] << 16 | (uint32_t)at[2] << 8 | at[3]
               : (uint32_t)at[3] << 24 | (uint32_t)at[2] << 16 | (uint32_t)at[1] << 8 | at[0];
}

/* Whether the numbers of a pcap file are big-endian. */
static int is_big(const uint8_t *head, size_t len, const char *name) {
    uint32_t magic = len < 24 ? 0 : number_at(head, 0);
    if (magic == 0xd4c3b2a1 || magic == 0x4d3cb2a1) return 1;
    if (magic == 0xa1b2c3d4 || magic == 0xa1b23c4d) return 0;
    fprintf(stderr, "capture: %s is no pcap file: tcpdump -r %s -w OUT makes one of it\n", name, name);
    exit(2);
}

/* Tells the packets of a file that pass: a head of 24 bytes, then for each packet one of 16 and its bytes. */
static void walk(const struct filter *filter, const uint8_t *file, size_t len, const char *name) {
    const int big = is_big(file, len, name);
    size_t at = 24, count = 0, passed = 0, cut = 0;
    uint32_t bound = 0;
    while (len - at >= 16) {
        const struct packet packet = {file + at + 16, number_at(file + at + 8, big), number_at(file + at + 12, big)};
        if (len - at - 16 < packet.captured) break;
        count++;
        cut += packet.captured > GREATEST_BLOCK - LENGTH_BYTES;
        if (passes(filter, &packet, &bound)) printf("%zu\n", count), passed++;
        at += 16 + packet.captured;
    }
    fprintf(stderr, "%zu of %zu packets pass, within %u instructions each\n", passed, count, (unsigned)bound);
    if (cut) fprintf(stderr, "%zu of them are longer than %d bytes, and the filter saw no more\n", cut, GREATEST_BLOCK - LENGTH_BYTES);
}

static uint8_t *read_file(const char *name, size_t *len) {
    FILE *file = fopen(name, "rb");
    size_t room = 0, count = 1;
    uint8_t *all = NULL;
    if (!file) fail("cannot read", name);
    for (*len = 0; count; *len += count) {
        if (*len == room) {
            room = room ? 2 * room : 4096;
            all = realloc(all, room);
            if (!all) fail("cannot read", name);
        }
        count = fread(all + *len, 1, room - *len, file);
    }
    if (ferror(file)) fail("cannot read", name);
    fclose(file);
    return all;
}

int main(int argc, char **argv) {
    static struct filter filter;
    size_t len;
    uint8_t *file;
    if (argc < 2 || argc > 3) {
        fputs("usage: capture FILE EXPRESSION\n       tcpdump -ddd -r FILE EXPRESSION | capture FILE\n", stderr);
        return 2;
    }
    file = read_file(argv[1], &len);
    if (argc == 3) compile(&filter, argv[1], argv[2]);
    else read_filter(&filter, stdin);
    walk(&filter, file, len, argv[1]);
    free(file);
    return 0;
}
