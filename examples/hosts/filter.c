/* filter.c: runs a filter that somebody else wrote over the frames of a pcap file.
 *
 *   filter [--big] IMAGE CERTIFICATE FRAMES [ROUNDS]
 *   filter --make FRAMES
 *
 * The certificate is checked once; from then on the filter runs without a test that could fail. For each frame a line comes,
 * accept or drop, and at the end on standard error how many frames there were a second, in ROUNDS rounds, 1 if not said.
 *
 * A filter gets each frame in a block, the context of examples/c/filter.h: the frame's length as a number of eight bytes in the image's
 * order, then the frame, then zeros, in as many bytes as the certificate speaks of at most. Of a frame that doesn't fit, the block has the
 * beginning, and its length is the whole one.
 *
 * `--make` writes a pcap file of eight frames to try it on.
 */
#include <bpf.h>
#include <errno.h>
#include <stdio.h>
#include <stdlib.h>
#include <string.h>
#include <time.h>

struct bytes {
    uint8_t *at;
    size_t len;
};

/* A run of so many instructions takes a few milliseconds: what this host pays for a frame at most. */
enum { GREATEST_BOUND = 1000000 };

/* The bytes in front of a block that hold the frame's length. */
enum { LENGTH_BYTES = 8 };

/* A filter that was judged: what is promised of it, its program, ready to run, and the block that it gets its frames in. */
struct filter {
    struct bpf_verdict verdict;
    uint32_t order;
    uint64_t *words;
    size_t words_len;
    uint8_t block[4096];
};

static void fail(const char *what, const char *name) {
    fprintf(stderr, "filter: %s %s: %s\n", what, name, strerror(errno));
    exit(3);
}

static struct bytes read_file(const char *name) {
    struct bytes all = {NULL, 0};
    FILE *file = fopen(name, "rb");
    size_t room = 0, count = 1;
    if (!file) fail("cannot read", name);
    while (count) {
        if (all.len == room) {
            room = room ? 2 * room : 4096;
            all.at = realloc(all.at, room);
            if (!all.at) fail("cannot read", name);
        }
        count = fread(all.at + all.len, 1, room - all.len, file);
        all.len += count;
    }
    if (ferror(file)) fail("cannot read", name);
    fclose(file);
    return all;
}

/* ---- the filter */

static void say_refusal(const struct bpf_refusal *why) {
    char text[128];
    bpf_refusal_text(why->kind, why->number, text, sizeof text);
    fprintf(stderr, "filter: refused by %c%u at %s %llu: %s\n", (int)why->kind, (unsigned)why->number,
            why->kind == BPF_CERTIFICATE ? "line" : "slot", (unsigned long long)why->place, text);
}

/* Judges the image, and prepares its program. A block has to have room for a length. */
static void load(struct filter *filter, const struct bytes *image, const struct bytes *certificate, uint32_t order) {
    struct bpf_verdict *verdict = &filter->verdict;
    struct bpf_refusal why;
    char text[256];
    int32_t answer;
    filter->order = order;
    filter->words_len = bpf_loaded_size(image->len);
    filter->words = calloc(filter->words_len + 1, sizeof *filter->words); /* some, also where no image has that length */
    if (!filter->words) fail("no memory for", "the program");
    answer = bpf_load(image->at, image->len, order, certificate->at, certificate->len, GREATEST_BOUND, filter->words, filter->words_len, verdict, &why);
    switch (answer) {
    case BPF_YES: break;
    case BPF_NO: say_refusal(&why); exit(1);
    case BPF_TOO_LONG:
        fprintf(stderr, "filter: a run may take %u instructions, and this host pays for %d at most\n", (unsigned)verdict->bound, GREATEST_BOUND);
        exit(1);
    default:
        bpf_answer_text(answer, text, sizeof text);
        fprintf(stderr, "filter: %s\n", text);
        exit(3);
    }
    if (verdict->most < LENGTH_BYTES) {
        fprintf(stderr, "filter: a context of %u bytes has no room for the frame's length, %d bytes\n", (unsigned)verdict->most, LENGTH_BYTES);
        exit(1);
    }
}

/* Puts a frame into the filter's block, and tells the block's length. */
static size_t fill(struct filter *filter, const uint8_t *frame, size_t len) {
    size_t most = filter->verdict.most, room = most - LENGTH_BYTES, taken = len < room ? len : room, i;
    for (i = 0; i < LENGTH_BYTES; i++) {
        size_t from_end = filter->order == BPF_BIG ? LENGTH_BYTES - 1 - i : i;
        filter->block[i] = (uint8_t)((uint64_t)len >> 8 * from_end);
    }
    memcpy(filter->block + LENGTH_BYTES, frame, taken);
    memset(filter->block + LENGTH_BYTES + taken, 0, room - taken);
    return most;
}

/* What the filter says of a frame: other than 0 accepts it. Nothing changes the words behind bpf_load, as bpf_run_loaded wants. */
static int accepts(struct filter *filter, const uint8_t *frame, size_t len) {
    uint64_t result = 0;
    bpf_run_loaded(filter->words, filter->words_len, filter->block, fill(filter, frame, len), &result);
    return result != 0;
}

/* ---- the frames */

static uint32_t number_at(const uint8_t *at, int big) {
    return big ? (uint32_t)at[0] << 24 | (uint32_t)at[1] << 16 | (uint32_t)at[2] << 8 | at[3]
               : (uint32_t)at[3] << 24 | (uint32_t)at[2] << 16 | (uint32_t)at[1] << 8 | at[0];
}

/* A walk over the frames of a pcap file: a head of 24 bytes, then for each frame one of 16 and its bytes. */
struct walk {
    const struct bytes *file;
    size_t at;
    int big;
};

static struct walk first_frame(const struct bytes *file, const char *name) {
    struct walk walk = {file, 24, 0};
    uint32_t magic = file->len < 24 ? 0 : number_at(file->at, 0);
    walk.big = magic == 0xd4c3b2a1 || magic == 0x4d3cb2a1;
    if (!walk.big && magic != 0xa1b2c3d4 && magic != 0xa1b23c4d) {
        fprintf(stderr, "filter: %s is no pcap file\n", name);
        exit(2);
    }
    return walk;
}

/* The next frame; 0 at the end, and where the file breaks off. */
static int next_frame(struct walk *walk, const uint8_t **frame, size_t *len) {
    size_t left = walk->file->len - walk->at;
    if (left < 16) return 0;
    *len = number_at(walk->file->at + walk->at + 8, walk->big);
    if (left - 16 < *len) return 0;
    *frame = walk->file->at + walk->at + 16;
    walk->at += 16 + *len;
    return 1;
}

/* ---- a file of frames */

static void put_number(FILE *file, uint32_t number) {
    int i;
    for (i = 0; i < 4; i++) fputc((int)(number >> 8 * i & 255), file);
}

/* A frame of IPv4, or of another type, to a port behind a header of so many words. */
static void put_frame(FILE *file, uint32_t type, uint32_t words, uint32_t protocol, uint32_t port, uint32_t len) {
    uint8_t frame[1514] = {0};
    frame[12] = (uint8_t)(type >> 8), frame[13] = (uint8_t)type;
    frame[14] = (uint8_t)(0x40 | words);
    frame[23] = (uint8_t)protocol;
    frame[14 + 4 * words + 2] = (uint8_t)(port >> 8), frame[14 + 4 * words + 3] = (uint8_t)port;
    put_number(file, 0), put_number(file, 0), put_number(file, len), put_number(file, len);
    fwrite(frame, 1, len, file);
}

static int make(const char *name) {
    FILE *file = fopen(name, "wb");
    if (!file) fail("cannot write", name);
    put_number(file, 0xa1b2c3d4), put_number(file, 4 << 16 | 2), put_number(file, 0), put_number(file, 0);
    put_number(file, 65535), put_number(file, 1);
    put_frame(file, 0x0800, 5, 6, 443, 60);   /* TCP to 443 */
    put_frame(file, 0x0800, 5, 6, 80, 60);    /* TCP to another port */
    put_frame(file, 0x0800, 5, 17, 443, 60);  /* UDP */
    put_frame(file, 0x86dd, 5, 6, 443, 60);   /* IPv6 */
    put_frame(file, 0x0800, 5, 6, 443, 38);   /* as short as can be */
    put_frame(file, 0x0800, 5, 6, 443, 37);   /* shorter */
    put_frame(file, 0x0800, 6, 6, 443, 64);   /* TCP to 443, behind an option */
    put_frame(file, 0x0800, 5, 6, 443, 1514); /* longer than a block */
    if (fclose(file)) fail("cannot write", name);
    return 0;
}

/* ---- */

static double now(void) {
    struct timespec t;
    timespec_get(&t, TIME_UTC);
    return (double)t.tv_sec + 1e-9 * (double)t.tv_nsec;
}

/* Tells the answer on each frame. */
static void tell(struct filter *filter, struct walk walk) {
    const uint8_t *frame;
    size_t len;
    while (next_frame(&walk, &frame, &len)) puts(accepts(filter, frame, len) ? "accept" : "drop");
}

/* One round over the frames: how many there are, and how many more are accepted. */
static size_t round_over(struct filter *filter, struct walk walk, size_t *accepted) {
    const uint8_t *frame;
    size_t len, count = 0;
    while (next_frame(&walk, &frame, &len)) {
        *accepted += (size_t)accepts(filter, frame, len);
        count++;
    }
    return count;
}

static int usage(void) {
    fputs("usage: filter [--big] IMAGE CERTIFICATE FRAMES [ROUNDS]\n       filter --make FRAMES\n", stderr);
    return 2;
}

int main(int argc, char **argv) {
    int big = argc > 1 && !strcmp(argv[1], "--big");
    char **word = argv + 1 + big;
    int words = argc - 1 - big;
    if (words == 2 && !strcmp(word[0], "--make")) return make(word[1]);
    if (words < 3 || words > 4) return usage();

    struct bytes image = read_file(word[0]), certificate = read_file(word[1]), frames = read_file(word[2]);
    struct filter filter;
    load(&filter, &image, &certificate, big ? BPF_BIG : BPF_LITTLE);
    long rounds = words == 4 ? atol(word[3]) : 1, i;
    struct walk walk = first_frame(&frames, word[2]);
    size_t count = 0, accepted = 0;
    double start;
    tell(&filter, walk);
    start = now();
    for (i = 0; i < rounds; i++) count += round_over(&filter, walk, &accepted);
    fprintf(stderr, "%zu of %zu frames accepted, %.0f frames a second\n", accepted, count, (double)count / (now() - start));
    free(image.at), free(certificate.at), free(frames.at), free(filter.words);
    return 0;
}
