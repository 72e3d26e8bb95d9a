/* hardened.c: hardened images and their certificates, by the library for hosts.
 *
 *   hardened IMAGE ORDER SIZE PADDED UNPROVED UNTOUCHED NEW CERT
 *       writes the hardened image to NEW and a certificate of it to CERT, and loads them: the bound; or the letter and number of the refusal
 *   hardened bad
 *       calls that no caller should make, and rooms that are too small */
#include <bpf.h>
#include <stdio.h>
#include <stdlib.h>
#include <string.h>

enum { MOST = 524288 };

static uint8_t old[MOST + 1], made[MOST];
static uint64_t handle[MOST / 8 + MOST / 64 + 5];
static char text[1 << 22];

static size_t read_file(const char *name) {
    FILE *file = fopen(name, "rb");
    size_t len;
    if (!file) exit(3);
    len = fread(old, 1, sizeof old, file);
    fclose(file);
    return len;
}

static void write_file(const char *name, const void *at, size_t len) {
    FILE *file = fopen(name, "wb");
    if (!file || fwrite(at, 1, len, file) != len || fclose(file)) exit(3);
}

static int say(const struct bpf_refusal *why) {
    printf("no %c%u at slot %llu\n", (char)why->kind, why->number, (unsigned long long)why->place);
    return 1;
}

static int harden(char **word) {
    const struct bpf_hardening asked = {65536, (uint32_t)atoi(word[3]), 0, (uint32_t)atoi(word[4]), (uint32_t)atoi(word[5])};
    const uint32_t order = strcmp(word[1], "big") ? BPF_LITTLE : BPF_BIG, size = (uint32_t)atoi(word[2]);
    struct bpf_verdict promised = {0, 0, 0};
    struct bpf_refusal why;
    size_t len = read_file(word[0]), wanted = 0, count = 0;
    switch (bpf_harden(old, len, order, size, &asked, NULL, 0, &wanted, &why)) {
    case BPF_NO: return say(&why);
    case BPF_TOO_SMALL: break;
    default: return 3;
    }
    if (wanted > BPF_IMAGE_MOST) return 3;
    if (bpf_harden(old, len, order, size, &asked, made, wanted - 1, &count, &why) != BPF_TOO_SMALL || count != wanted || made[0]) return 3;
    if (bpf_harden(old, len, order, size, &asked, made, sizeof made, &count, &why) != BPF_YES || count != wanted) return 3;
    write_file(word[6], made, wanted);
    switch (bpf_infer(made, wanted, order, size, size, 1, text, sizeof text, &count, &why)) {
    case BPF_NO: return say(&why);
    case BPF_YES: break;
    default: return 3;
    }
    if (count > bpf_infer_size(wanted)) return 3;
    write_file(word[7], text, count);
    if (bpf_load(made, wanted, order, text, count, UINT32_MAX, handle, bpf_loaded_size(wanted), &promised, &why) != BPF_YES) return 3;
    printf("bound %u\n", promised.bound);
    return 0;
}

/* Two instructions: r0 = 0, exit. */
static const uint8_t SMALL[16] = {0xb7, 0, 0, 0, 0, 0, 0, 0, 0x95, 0, 0, 0, 0, 0, 0, 0};

static int bad(void) {
    const struct bpf_hardening odd = {1, 2, 0, 0, 0}, half = {1, 0, 0, 2, 0}, more = {1, 0, 0, 0, 513};
    struct bpf_refusal why = {7, 7, 7, 7};
    size_t wanted = 7;
    int wrong = 0;
    wrong |= bpf_harden(NULL, 16, BPF_LITTLE, 0, NULL, made, 16, &wanted, &why) != BPF_BAD_MEMORY;
    wrong |= bpf_harden(SMALL, 16, 2, 0, NULL, made, 16, &wanted, &why) != BPF_BAD_CALL;
    wrong |= bpf_harden(SMALL, 16, BPF_LITTLE, 4097, NULL, made, 16, &wanted, &why) != BPF_BAD_CALL;
    wrong |= bpf_harden(SMALL, 16, BPF_LITTLE, 0, &odd, made, 16, &wanted, &why) != BPF_BAD_CALL;
    wrong |= bpf_harden(SMALL, 16, BPF_LITTLE, 0, &half, made, 16, &wanted, &why) != BPF_BAD_CALL;
    wrong |= bpf_harden(SMALL, 16, BPF_LITTLE, 0, &more, made, 16, &wanted, &why) != BPF_BAD_CALL;
    wrong |= bpf_harden(SMALL, 16, BPF_LITTLE, 0, NULL, NULL, 16, &wanted, &why) != BPF_BAD_MEMORY;
    wrong |= bpf_harden(made, 16, BPF_LITTLE, 0, NULL, made, 16, &wanted, &why) != BPF_BAD_MEMORY;
    wrong |= wanted != 7 || why.kind != 7 || made[0];
    wrong |= bpf_harden(SMALL, 15, BPF_LITTLE, 0, NULL, made, 16, &wanted, &why) != BPF_NO || why.kind != BPF_IMAGE || why.number != 1;
    wrong |= wanted != 7 || made[0];
    wrong |= bpf_harden(SMALL, 16, BPF_LITTLE, 0, NULL, made, 15, &wanted, &why) != BPF_TOO_SMALL || wanted != 16 || made[0];
    wrong |= bpf_harden(SMALL, 16, BPF_LITTLE, 0, NULL, made, 17, NULL, NULL) != BPF_YES || memcmp(made, SMALL, 16) || made[16];
    return wrong;
}

int main(int argc, char **argv) {
    if (argc == 2 && !strcmp(argv[1], "bad")) return bad();
    return argc == 9 ? harden(argv + 1) : 2;
}
