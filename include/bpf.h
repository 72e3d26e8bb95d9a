/* bpf.h: the proved checker, machine and inferrer of eBPF (RFC 9669, integer profile), and the converter of classic BPF, for C and C++.
 *
 * Link libbpf_host.a. docs/HOSTS.md has each call's duty, answers, memory and threads. It wants C99 or C++11.
 *
 * The functions of this header look at what can be wrong with pointers and lengths, and hand the rest to the library, whose
 * own functions (bpf_host_..) take no pointer that is null. None keeps what it was given, or changes anything but what the
 * answer says; none has state, so any number of threads may call at once, each with memory of its own for the answers.
 * What isn't wanted of an answer may be null. A null pointer is bytes only with the length 0. Where one isn't, or an answer shares a byte with
 * what the call reads, or with the words or the text that it writes, it is BPF_BAD_MEMORY; the two calls that run prepared words don't look
 * whether *result lies in them or in the context.
 */
#ifndef BPF_HOST_H
#define BPF_HOST_H

#include <stddef.h>
#include <stdint.h>

#ifdef __cplusplus
extern "C" {
#endif

/* The version of this header, 0.3.4, as one number: 10,000 times its first part, 100 times its second, and its third, together. */
#define BPF_HOST_VERSION 304

/* The greatest image that there is, in bytes. */
enum { BPF_IMAGE_MOST = 524288 };

/* ---- what the calls answer */

enum bpf_answer {
    BPF_YES = 1,        /* done, and the answer stands where it was asked for */
    BPF_NO = 0,         /* refused, and the refusal says why */
    BPF_NO_MEMORY = -1,  /* malloc gave none */
    BPF_BAD_CALL = -2,   /* a number that the call doesn't take, or lines that are no table: see each call */
    BPF_TOO_SMALL = -3,  /* the memory for the answer is too small */
    BPF_TOO_LONG = -4,   /* a run may take more instructions than are paid for */
    BPF_BAD_LENGTH = -5, /* a context of a length for which the image isn't run */
    BPF_BAD_WORDS = -6,  /* words that this version of the library didn't write, or not all of them */
    BPF_BAD_MEMORY = -7  /* bytes or words that aren't there, or an answer that would be written over what is read or written beside it */
};

/* The byte order of an image and of the memory that it runs on. */
enum bpf_order { BPF_LITTLE = 0, BPF_BIG = 1 };

/* The letter of a refusal, or F of a fault. */
enum bpf_kind {
    BPF_CLASSIC = 'B',     /* the instructions are no filter of classic BPF */
    BPF_CHECK = 'C',       /* the certificate doesn't certify the program */
    BPF_IMAGE = 'E',       /* the bytes are no image */
    BPF_FAULT = 'F',       /* an instruction that the machine can't do */
    BPF_HARDENING = 'H',   /* the program isn't hardened */
    BPF_INFERENCE = 'I',   /* no certificate is proposed */
    BPF_CERTIFICATE = 'K', /* the text is no certificate */
    BPF_MISMATCH = 'M',    /* the notes don't show that the meaning is kept */
    BPF_NOTES = 'N'        /* the text is none of notes */
};

/* On every context of `least` to `most` bytes the program ends within `bound` instructions. */
struct bpf_verdict {
    uint32_t least; /* 0 to 4,096 */
    uint32_t most;  /* least to 4,096 */
    uint32_t bound; /* 1 to 2^32 - 1 */
};

struct bpf_refusal {
    uint32_t kind;      /* enum bpf_kind, but BPF_FAULT */
    uint32_t number;    /* from 1 */
    uint64_t place;     /* the slot, from 0; of BPF_CERTIFICATE and BPF_NOTES the line, from 1; of BPF_CLASSIC the filter's instruction, from 0 */
    uint64_t condition; /* of I4 and H7: the number of the checker's condition, 3 to 12; of H13: that of BPF_MISMATCH, 1 to 10, of which M8 is that there
                           are more notes than slots, M9 that there is no certificate for contexts of this length, and M10 that the old image comes to
                           no exit on these; of H14: the bound that is too great; of H15: the number of BPF_CHECK, 1 to 13; of BPF_IMAGE by
                           bpf_follows: 0 of the old image, 1 of the new one; else 0 */
};

enum bpf_end {
    BPF_DONE = 0,        /* with `value`, after `steps` instructions */
    BPF_FAULTED = 1,     /* by fault `number` at `slot`, after `steps` instructions */
    BPF_OUT_OF_FUEL = 2, /* as many instructions were done as there was fuel for */
    BPF_NOT_RUN = 3      /* the image is refused by E `number` at `slot` */
};

struct bpf_outcome {
    uint32_t kind;   /* enum bpf_end */
    uint32_t number; /* of the fault or refusal, else 0 */
    uint64_t slot;   /* of the fault or refusal, else 0 */
    uint64_t value;  /* what r0 holds, else 0 */
    uint64_t steps;  /* the instructions done, of BPF_DONE and BPF_FAULTED; else 0 */
};

/* What is asked of a certification, as the options of `bpf certify`. */
struct bpf_wish {
    uint32_t bound;     /* the greatest bound that is paid for, in instructions; bpf_certify takes 0 for 1,000,000 */
    uint32_t turns;     /* how often a loop that nothing counts may turn; 0: as often as is found to stay within the bound */
    uint64_t otherwise; /* as in struct bpf_hardening */
    uint32_t padded;    /* 1: the context is a block of a packet's length in eight bytes, the packet and padding; else 0 */
    uint32_t unproved;  /* 0: a new image that isn't shown to keep the meaning of the old one is refused, by H13; 1: nobody shows it */
};

/* In the place of a number of turns: no note has a counter, so it is shown however often a run comes to an instruction. */
#define BPF_ANY_TURNS UINT32_MAX    /* of struct bpf_certified */
#define BPF_ANY_TURNS_64 UINT64_MAX /* of struct bpf_following */

/* What was certified. */
struct bpf_certified {
    size_t image_len;       /* how many bytes the image has, at most BPF_IMAGE_MOST */
    size_t certificate_len; /* and how many its certificate */
    uint32_t bound;         /* the greatest number of instructions of a run */
    uint32_t turns;         /* it is shown of runs of the old image that come to no instruction more often, BPF_ANY_TURNS of all; 0 where it is the old one */
    uint32_t untouched;     /* and that leave so many of the lowest bytes of each frame to r10 */
    uint32_t is_rewritten;  /* 0: the image is the old one; 1: it is hardened */
    uint32_t is_shown;      /* 1: it keeps the meaning of the old one, on those runs; 0: nobody showed it */
};

/* What notes and a certificate show of two images: the contexts and runs on which the new one keeps the meaning of the old one, and its bound. */
struct bpf_following {
    uint32_t size;      /* how many bytes a context has, at most 4,096 */
    uint32_t padded;    /* 1: a context is a block, of which the old program is given the packet; else 0 */
    uint64_t turns;     /* runs of the old image that come to no instruction more often; BPF_ANY_TURNS_64: however often they do */
    uint32_t untouched; /* and that leave so many of the lowest bytes of each frame to r10 */
    uint32_t bound;     /* the greatest number of instructions of a run of the new image, which its certificate says */
};

/* The form of the contexts that a filter of classic BPF is converted for. */
enum bpf_form {
    BPF_BLOCKS = 0, /* a packet's length in eight bytes, in the image's order, the packet, as much of it as fits, and anything */
    BPF_PLAIN = 1,  /* the packet alone */
    BPF_SECCOMP = 2, /* `struct seccomp_data`, 64 bytes, with its words in the image's order; the filter is one of seccomp */
    BPF_EXTENDED = 3 /* as BPF_BLOCKS, with sixteen words of Linux's auxiliary data (SKF_AD_OFF), in the image's order, behind the length */
};

/* With a form, as BPF_BLOCKS | BPF_TURNS(300): a run of the filter may jump back so many times, from 1 to 65,535, before the image answers 0. Without it an
 * eighth of the most bytes of a packet that can be there, and one more. A filter without a loop becomes the same image. */
#define BPF_TURNS(n) ((uint32_t)(n) << 16)

/* What was converted. */
struct bpf_converted {
    size_t image_len;       /* how many bytes the image has, at most BPF_IMAGE_MOST */
    size_t certificate_len; /* and how many its certificate */
    uint32_t bound;         /* the greatest number of instructions of a run: the longest way through the program */
};

/* What is asked of bpf_host_harden, bpf_host_certify and bpf_host_convert: the numbers that the calls below are handed. */
struct bpf_harden_asked {
    uint32_t size;
    uint32_t turns;
    uint64_t otherwise;
    uint32_t padded;
    uint32_t unproved;
    uint32_t untouched;
};

struct bpf_certify_asked {
    uint32_t order;
    uint32_t size;
    struct bpf_wish wish;
};

struct bpf_convert_asked {
    uint32_t filter_order;
    uint32_t form;
    uint32_t size;
    uint32_t order;
};

/* ---- the library's functions. In C and C++ call those below them, which look at what they are handed; from other languages these: no
 * pointer is null, also where its length is 0 (then any that is aligned does), `memory` is aligned to 8 bytes and its length counts bytes,
 * and no bytes that are read are those that are written. */

uint32_t bpf_host_version(void);
int32_t bpf_host_verify(const uint8_t *image, size_t image_len, uint32_t order, const uint8_t *certificate,
                        size_t certificate_len, struct bpf_verdict *verdict, struct bpf_refusal *refusal);
size_t bpf_host_prepared_size(size_t image_len);
int32_t bpf_host_prepare(const uint8_t *image, size_t image_len, uint32_t order, uint8_t *memory, size_t memory_len);
int32_t bpf_host_run_checked(const uint8_t *memory, size_t memory_len, const uint8_t *context, size_t context_len,
                             uint64_t *value);
size_t bpf_host_loaded_size(size_t image_len);
int32_t bpf_host_load(const uint8_t *image, size_t image_len, uint32_t order, const uint8_t *certificate,
                      size_t certificate_len, uint32_t limit, uint8_t *memory, size_t memory_len, struct bpf_verdict *verdict,
                      struct bpf_refusal *refusal);
int32_t bpf_host_run_loaded(const uint8_t *memory, size_t memory_len, const uint8_t *context, size_t context_len,
                            uint64_t *value);
int32_t bpf_host_run(const uint8_t *image, size_t image_len, uint32_t order, const uint8_t *context, size_t context_len,
                     uint64_t fuel, struct bpf_outcome *outcome);
int32_t bpf_host_run_prepared(const uint8_t *memory, size_t memory_len, const uint8_t *context, size_t context_len,
                              uint64_t fuel, struct bpf_outcome *outcome);
int32_t bpf_host_follows(const uint8_t *old_image, size_t old_len, const uint8_t *new_image, size_t new_len, uint32_t order,
                         const uint8_t *notes, size_t notes_len, const uint8_t *certificate, size_t certificate_len,
                         struct bpf_following *following, struct bpf_refusal *refusal);
int32_t bpf_host_ends_at_trap(const uint8_t *image, size_t image_len, uint32_t order, const uint8_t *notes, size_t notes_len,
                              const uint8_t *context, size_t context_len, uint64_t most, uint32_t *trap, struct bpf_refusal *refusal);
size_t bpf_host_convert_size(size_t count);
int32_t bpf_host_convert(const uint8_t *filter, size_t filter_len, const struct bpf_convert_asked *asked, uint8_t *made, size_t made_len,
                         uint8_t *text, size_t text_len, struct bpf_converted *converted, struct bpf_refusal *refusal);
size_t bpf_host_infer_size(size_t image_len);
size_t bpf_host_explain_size(size_t image_len, size_t certificate_len, size_t lines_len);
int32_t bpf_host_infer(const uint8_t *image, size_t image_len, uint32_t order, uint32_t least, uint32_t most, uint32_t deep,
                       uint8_t *text, size_t text_len, size_t *wanted, struct bpf_refusal *refusal);
int32_t bpf_host_harden(const uint8_t *image, size_t image_len, uint32_t order, const struct bpf_harden_asked *asked, uint8_t *text,
                        size_t text_len, size_t *wanted, struct bpf_refusal *refusal);
int32_t bpf_host_certify(const uint8_t *image, size_t image_len, const struct bpf_certify_asked *asked, uint8_t *made, size_t made_len,
                         uint8_t *text, size_t text_len, struct bpf_certified *certified, struct bpf_refusal *refusal);
int32_t bpf_host_explain(const uint8_t *image, size_t image_len, uint32_t order, const uint8_t *certificate, size_t certificate_len,
                         uint32_t aspect, uint32_t slot, const uint8_t *lines, size_t lines_len, uint8_t *text, size_t text_len,
                         size_t *wanted, struct bpf_refusal *refusal);
int32_t bpf_host_explain_search(const uint8_t *image, size_t image_len, uint32_t order, uint32_t least, uint32_t most, uint32_t deep,
                                uint32_t aspect, uint32_t slot, const uint8_t *lines, size_t lines_len, uint8_t *text, size_t text_len,
                                size_t *wanted, struct bpf_refusal *refusal);
int32_t bpf_host_explain_image(const uint8_t *image, size_t image_len, uint32_t order, uint32_t graph, uint8_t *text, size_t text_len,
                               size_t *wanted, struct bpf_refusal *refusal);
size_t bpf_host_refusal_text(uint32_t kind, uint32_t number, uint8_t *text, size_t text_len);
size_t bpf_host_answer_text(int32_t answer, uint8_t *text, size_t text_len);

/* ---- bytes, as C hands them over */

/* Whether there are such bytes: a null pointer has none, and no object is larger than PTRDIFF_MAX. */
static inline int bpf_are_bytes(const void *at, size_t len) {
    return (at || !len) && len <= (size_t)PTRDIFF_MAX;
}

/* The same bytes, by a pointer that isn't null. */
static inline const uint8_t *bpf_bytes(const void *at) {
    static const uint8_t none = 0;
    return at ? (const uint8_t *)at : &none;
}

/* Whether memory that is written shares a byte with memory that is read. */
static inline int bpf_overlap(const void *out, size_t out_len, const void *in, size_t in_len) {
    uintptr_t o = (uintptr_t)out, i = (uintptr_t)in;
    return out_len && in_len && (o < i ? i - o < out_len : o - i < in_len);
}

/* Whether an answer may be written: it isn't wanted, or it shares no byte with either memory. */
static inline int bpf_is_apart(const void *answer, size_t answer_len, const void *one, size_t one_len, const void *two, size_t two_len) {
    return !answer || !(bpf_overlap(answer, answer_len, one, one_len) || bpf_overlap(answer, answer_len, two, two_len));
}

/* Whether a text, and what is told beside it, share no byte with memory that is read, nor that with the text. */
static inline int bpf_may_tell(const void *text, size_t text_len, const size_t *wanted, const struct bpf_refusal *refusal, const void *in,
                               size_t in_len) {
    return !bpf_overlap(text, text_len, in, in_len) && bpf_is_apart(wanted, sizeof *wanted, in, in_len, text, text_len) &&
           bpf_is_apart(refusal, sizeof *refusal, in, in_len, text, text_len);
}

/* The order of the bytes of this machine's numbers. */
static inline uint32_t bpf_order_here(void) {
    const uint16_t one = 1;
    return *(const uint8_t *)&one ? BPF_LITTLE : BPF_BIG;
}

/* Whether two memories that are written share no byte with memory that is read, or with one another, and no answer with one of the three. */
static inline int bpf_may_make(const void *made, size_t made_len, const void *text, size_t text_len, const void *told, size_t told_len,
                               const struct bpf_refusal *refusal, const void *in, size_t in_len) {
    return !bpf_overlap(made, made_len, in, in_len) && !bpf_overlap(text, text_len, in, in_len) && !bpf_overlap(made, made_len, text, text_len) &&
           bpf_is_apart(told, told_len, in, in_len, made, made_len) && bpf_is_apart(told, told_len, text, text_len, NULL, 0) &&
           bpf_is_apart(refusal, sizeof *refusal, in, in_len, made, made_len) && bpf_is_apart(refusal, sizeof *refusal, text, text_len, NULL, 0);
}

/* How many words stand in front of the image in a prepared program, and in a handle. */
enum { BPF_PREPARED_HEAD = 2, BPF_LOADED_HEAD = 5 };

/* Whether memory is that of so many words: there, aligned, and no larger than an object. */
static inline int bpf_are_words(const uint64_t *words, size_t words_len) {
    return words && (uintptr_t)words % sizeof(uint64_t) == 0 && words_len <= (size_t)PTRDIFF_MAX / sizeof(uint64_t);
}

/* ---- the calls */

/* The version of the library that is linked, as one number like BPF_HOST_VERSION, which it is where header and library belong together. */
static inline uint32_t bpf_version(void) {
    return bpf_host_version();
}

/* Whether a certificate certifies an image. BPF_YES: *verdict is promised of the image, whoever made the certificate. BPF_NO:
 * *refusal says why, by E, K or C. BPF_NO_MEMORY. BPF_BAD_MEMORY: no bytes, or an answer that lies in them. BPF_BAD_CALL: an order that
 * isn't one. */
static inline int32_t bpf_verify(const void *image, size_t image_len, uint32_t order, const void *certificate,
                                 size_t certificate_len, struct bpf_verdict *verdict, struct bpf_refusal *refusal) {
    struct bpf_verdict promised = {0, 0, 0};
    struct bpf_refusal why = {0, 0, 0, 0};
    int32_t answer;
    if (!bpf_are_bytes(image, image_len) || !bpf_are_bytes(certificate, certificate_len)) return BPF_BAD_MEMORY;
    if (!bpf_is_apart(verdict, sizeof *verdict, image, image_len, certificate, certificate_len)) return BPF_BAD_MEMORY;
    if (!bpf_is_apart(refusal, sizeof *refusal, image, image_len, certificate, certificate_len)) return BPF_BAD_MEMORY;
    answer = bpf_host_verify(bpf_bytes(image), image_len, order, bpf_bytes(certificate), certificate_len, &promised, &why);
    if (answer == BPF_YES && verdict) *verdict = promised;
    if (answer == BPF_NO && refusal) *refusal = why;
    return answer;
}

/* How many words of memory the prepared program of an image of so many bytes takes; 0 where no image has that length. */
static inline size_t bpf_prepared_size(size_t image_len) {
    return bpf_host_prepared_size(image_len);
}

/* Prepares the program of an image for bpf_run_checked and bpf_run_prepared, in words of the caller; what they hold is the library's, and another version
 * doesn't run it. It may be copied and moved. BPF_YES. BPF_NO: the image is refused (bpf_verify says why).
 * BPF_TOO_SMALL: there are fewer words than bpf_prepared_size(image_len), whatever the image holds. Before both, BPF_BAD_CALL: an
 * order that isn't one; BPF_BAD_MEMORY: no bytes, no words, or words that lie in the image. Only BPF_YES changes the words. Nothing is
 * allocated. */
static inline int32_t bpf_prepare(const void *image, size_t image_len, uint32_t order, uint64_t *words, size_t words_len) {
    size_t size = bpf_host_prepared_size(image_len), used = words_len < size ? words_len : size;
    if (order > BPF_BIG) return BPF_BAD_CALL;
    if (!bpf_are_bytes(image, image_len) || !bpf_are_words(words, words_len)) return BPF_BAD_MEMORY;
    if (bpf_overlap(words, 8 * used, image, image_len)) return BPF_BAD_MEMORY;
    if (words_len < size) return BPF_TOO_SMALL;
    return bpf_host_prepare(bpf_bytes(image), image_len, order, (uint8_t *)words, 8 * size);
}

/* Runs a prepared program: BPF_YES, and *result is what r0 holds at its end, which comes within the verdict's bound. Nothing is
 * allocated. BPF_BAD_MEMORY: no words, or no bytes. BPF_BAD_WORDS: another version prepared the words, or there are fewer than the image
 * takes. *result stays then.
 *
 * The caller's duty, which nobody looks at here: bpf_prepare said BPF_YES to these words, and they are as it left them; bpf_verify
 * said BPF_YES to the same image in the same order; and context_len is from `least` to `most` of that verdict. Where one isn't
 * so, nothing is promised of what comes. */
static inline int32_t bpf_run_checked(const uint64_t *words, size_t words_len, const void *context, size_t context_len,
                                      uint64_t *result) {
    uint64_t value = 0;
    int32_t answer;
    if (!bpf_are_words(words, words_len) || !bpf_are_bytes(context, context_len)) return BPF_BAD_MEMORY;
    if (words_len < BPF_PREPARED_HEAD) return BPF_BAD_WORDS;
    answer = bpf_host_run_checked((const uint8_t *)words, 8 * words_len, bpf_bytes(context), context_len, &value);
    if (answer == BPF_YES && result) *result = value;
    return answer;
}

/* How many words of memory the handle of an image of so many bytes takes; 0 where no image has that length. */
static inline size_t bpf_loaded_size(size_t image_len) {
    return bpf_host_loaded_size(image_len);
}

/* Judges an image by a certificate, and writes a handle for bpf_run_loaded, in words of the caller: bpf_verify and bpf_prepare in
 * one call, on the same bytes. `limit` is the greatest bound that the caller pays for. What the words hold is the library's, and
 * another version doesn't run it. They may be copied and moved. BPF_YES: the handle stands in the words, and *verdict is promised of
 * the image. BPF_TOO_LONG: *verdict is promised, and its bound is above the limit. BPF_NO: *refusal says why, by E, K or C.
 * BPF_NO_MEMORY. BPF_TOO_SMALL: there are fewer words than bpf_loaded_size(image_len), whatever the image holds. Before all that,
 * BPF_BAD_CALL: an order that isn't one; BPF_BAD_MEMORY: no bytes, no words, words that lie in the image or the certificate, or an answer that
 * lies in one of the three. Only BPF_YES changes the words. */
static inline int32_t bpf_load(const void *image, size_t image_len, uint32_t order, const void *certificate,
                               size_t certificate_len, uint32_t limit, uint64_t *words, size_t words_len,
                               struct bpf_verdict *verdict, struct bpf_refusal *refusal) {
    size_t size = bpf_host_loaded_size(image_len), used = words_len < size ? words_len : size;
    struct bpf_verdict promised = {0, 0, 0};
    struct bpf_refusal why = {0, 0, 0, 0};
    int32_t answer;
    if (order > BPF_BIG) return BPF_BAD_CALL;
    if (!bpf_are_bytes(image, image_len) || !bpf_are_bytes(certificate, certificate_len)) return BPF_BAD_MEMORY;
    if (!bpf_are_words(words, words_len) || bpf_overlap(words, 8 * used, image, image_len)) return BPF_BAD_MEMORY;
    if (bpf_overlap(words, 8 * used, certificate, certificate_len)) return BPF_BAD_MEMORY;
    if (!bpf_is_apart(verdict, sizeof *verdict, image, image_len, certificate, certificate_len)) return BPF_BAD_MEMORY;
    if (!bpf_is_apart(refusal, sizeof *refusal, image, image_len, certificate, certificate_len)) return BPF_BAD_MEMORY;
    if (!bpf_is_apart(verdict, sizeof *verdict, words, 8 * used, NULL, 0)) return BPF_BAD_MEMORY;
    if (!bpf_is_apart(refusal, sizeof *refusal, words, 8 * used, NULL, 0)) return BPF_BAD_MEMORY;
    if (words_len < size) return BPF_TOO_SMALL;
    answer = bpf_host_load(bpf_bytes(image), image_len, order, bpf_bytes(certificate), certificate_len, limit, (uint8_t *)words,
                           8 * size, &promised, &why);
    if ((answer == BPF_YES || answer == BPF_TOO_LONG) && verdict) *verdict = promised;
    if (answer == BPF_NO && refusal) *refusal = why;
    return answer;
}

/* Runs the program of a handle. BPF_YES: *result is what r0 holds at its end, which comes within the verdict's bound. BPF_BAD_MEMORY:
 * no words, or no bytes. BPF_BAD_WORDS: another version loaded the words, or there are fewer than the handle has. BPF_BAD_LENGTH: the
 * context's length isn't one of the verdict's. *result stays then. Nothing is allocated.
 *
 * The caller's duty, which nobody looks at here: bpf_load said BPF_YES to these words, and they are as it left them. Where that
 * isn't so, nothing is promised of what comes. */
static inline int32_t bpf_run_loaded(const uint64_t *words, size_t words_len, const void *context, size_t context_len,
                                     uint64_t *result) {
    uint64_t value = 0;
    int32_t answer;
    if (!bpf_are_words(words, words_len) || !bpf_are_bytes(context, context_len)) return BPF_BAD_MEMORY;
    if (words_len < BPF_LOADED_HEAD) return BPF_BAD_WORDS;
    answer = bpf_host_run_loaded((const uint8_t *)words, 8 * words_len, bpf_bytes(context), context_len, &value);
    if (answer == BPF_YES && result) *result = value;
    return answer;
}

/* Runs an image that nobody verified, on the exact machine, for at most `fuel` instructions. BPF_YES: it ran, and *outcome says
 * how that ended. BPF_NO: the image is refused, as *outcome says. BPF_BAD_MEMORY: no bytes, or an outcome that lies in them.
 * BPF_BAD_CALL: an order that isn't one. BPF_BAD_LENGTH: a context of more than 4,096 bytes. *outcome stays then. Nothing is allocated. */
static inline int32_t bpf_run(const void *image, size_t image_len, uint32_t order, const void *context, size_t context_len,
                              uint64_t fuel, struct bpf_outcome *outcome) {
    struct bpf_outcome end = {0, 0, 0, 0, 0};
    int32_t answer;
    if (!bpf_are_bytes(image, image_len) || !bpf_are_bytes(context, context_len)) return BPF_BAD_MEMORY;
    if (!bpf_is_apart(outcome, sizeof *outcome, image, image_len, context, context_len)) return BPF_BAD_MEMORY;
    answer = bpf_host_run(bpf_bytes(image), image_len, order, bpf_bytes(context), context_len, fuel, &end);
    if ((answer == BPF_YES || answer == BPF_NO) && outcome) *outcome = end;
    return answer;
}

/* Runs a prepared program that nobody verified, as bpf_run runs its image, which isn't judged again at each call. BPF_YES: it ran, and
 * *outcome says how that ended. BPF_BAD_MEMORY: no words, no bytes, or an outcome that lies in them. BPF_BAD_LENGTH: a context of more than
 * 4,096 bytes. BPF_BAD_WORDS: another version prepared the words, or there are fewer than the image takes. *outcome stays then. Nothing is
 * allocated.
 *
 * The caller's duty, which nobody looks at here: bpf_prepare said BPF_YES to these words, and they are as it left them. Where that
 * isn't so, nothing is promised of what comes. */
static inline int32_t bpf_run_prepared(const uint64_t *words, size_t words_len, const void *context, size_t context_len,
                                       uint64_t fuel, struct bpf_outcome *outcome) {
    struct bpf_outcome end = {0, 0, 0, 0, 0};
    int32_t answer;
    if (!bpf_are_words(words, words_len) || !bpf_are_bytes(context, context_len)) return BPF_BAD_MEMORY;
    if (!bpf_is_apart(outcome, sizeof *outcome, words, 8 * words_len, context, context_len)) return BPF_BAD_MEMORY;
    if (context_len > 4096) return BPF_BAD_LENGTH;
    if (words_len < BPF_PREPARED_HEAD) return BPF_BAD_WORDS;
    answer = bpf_host_run_prepared((const uint8_t *)words, 8 * words_len, bpf_bytes(context), context_len, fuel, &end);
    if (answer == BPF_YES && outcome) *outcome = end;
    return answer;
}

/* How many bytes of memory do for whatever certificate bpf_infer proposes for an image of so many bytes, so that it needn't search twice.
 * Most take far less: it is the limits of the search that these are of. Memory that isn't written costs nothing where the system gives it by
 * pages; realloc takes back what isn't used. */
static inline size_t bpf_infer_size(size_t image_len) {
    return bpf_host_infer_size(image_len);
}

/* Proposes a certificate for an image, on contexts of `least` to `most` bytes; with `deep` 1 it is sought longer, and found for more
 * programs, as by `infer --deep`; else 0. BPF_YES: its text stands in the first *wanted
 * bytes of `text`. BPF_TOO_SMALL: it has *wanted bytes, and `text`, which may be null with the length 0, is as it was. BPF_NO:
 * none is proposed, and *refusal says why, by E or I. BPF_NO_MEMORY. BPF_BAD_CALL: an order or `deep` that isn't one, `least` above
 * `most`, or `most` above 4,096. BPF_BAD_MEMORY: no bytes, a text that lies in the image, or an answer that lies in either. Nobody relies on
 * a proposal: bpf_verify judges it. */
static inline int32_t bpf_infer(const void *image, size_t image_len, uint32_t order, uint32_t least, uint32_t most, uint32_t deep,
                                char *text, size_t text_len, size_t *wanted, struct bpf_refusal *refusal) {
    struct bpf_refusal why = {0, 0, 0, 0};
    size_t count = 0;
    uint8_t none = 0;
    int32_t answer;
    if (!bpf_are_bytes(image, image_len) || !bpf_are_bytes(text, text_len)) return BPF_BAD_MEMORY;
    if (!bpf_may_tell(text, text_len, wanted, refusal, image, image_len)) return BPF_BAD_MEMORY;
    answer = bpf_host_infer(bpf_bytes(image), image_len, order, least, most, deep, text ? (uint8_t *)text : &none, text_len, &count,
                            &why);
    if ((answer == BPF_YES || answer == BPF_TOO_SMALL) && wanted) *wanted = count;
    if (answer == BPF_NO && refusal) *refusal = why;
    return answer;
}

/* What is asked of a hardening, as the options of `bpf harden`. */
struct bpf_hardening {
    uint32_t turns;     /* how often a loop that nothing counts may turn; 0: 65,536 times */
    uint32_t padded;    /* 1: the context is a block of a packet's length in eight bytes, the packet, as much of it as fits, and padding; else 0 */
    uint64_t otherwise; /* r0 where a trap ends the program; a local function that may return any number returns it from a trap, and its
                           caller goes on */
    uint32_t unproved;  /* 0: a new image that isn't shown to keep the meaning of the old one is refused, by H13; 1: nobody shows it */
    uint32_t untouched; /* of which runs it is shown: of those that leave so many of the lowest bytes of each frame, at most 512, to r10 */
};

/* Hardens an image for contexts of exactly `size` bytes, so that bpf_infer with `deep` may find a certificate for it; `asked` may be
 * null: 65,536 turns, and all else 0. BPF_YES: the new image stands in the first *wanted bytes of `hardened`; unless `unproved` is 1, it
 * is shown to end with the old one's number on each context on which that one ends with a number, comes to no instruction more than `turns`
 * times, and goes by no other register than r10 to the lowest `untouched` bytes of a frame. BPF_TOO_SMALL: it has *wanted bytes, at
 * most BPF_IMAGE_MOST, and `hardened`, which may be null with the length 0, is as it was. BPF_NO: *refusal says why, by E or H.
 * BPF_NO_MEMORY. BPF_BAD_CALL: an order, `padded` or `unproved` that isn't one, `size` above 4,096, or `untouched` above 512. BPF_BAD_MEMORY:
 * no bytes, `hardened` lies in the image, or an answer in either. For safety nobody relies on it: a certificate of the new image is found
 * by bpf_infer, and judged by bpf_load or bpf_verify. */
static inline int32_t bpf_harden(const void *image, size_t image_len, uint32_t order, uint32_t size, const struct bpf_hardening *asked,
                                 void *hardened, size_t hardened_len, size_t *wanted, struct bpf_refusal *refusal) {
    struct bpf_harden_asked wish = {size, 65536, 0, 0, 0, 0};
    struct bpf_refusal why = {0, 0, 0, 0};
    size_t count = 0;
    uint8_t none = 0;
    int32_t answer;
    if (!bpf_are_bytes(image, image_len) || !bpf_are_bytes(hardened, hardened_len)) return BPF_BAD_MEMORY;
    if (!bpf_may_tell(hardened, hardened_len, wanted, refusal, image, image_len)) return BPF_BAD_MEMORY;
    if (asked) {
        if (asked->turns) wish.turns = asked->turns;
        wish.otherwise = asked->otherwise;
        wish.padded = asked->padded;
        wish.unproved = asked->unproved;
        wish.untouched = asked->untouched;
    }
    answer = bpf_host_harden(bpf_bytes(image), image_len, order, &wish, hardened ? (uint8_t *)hardened : &none, hardened_len, &count, &why);
    if ((answer == BPF_YES || answer == BPF_TOO_SMALL) && wanted) *wanted = count;
    if (answer == BPF_NO && refusal) *refusal = why;
    return answer;
}

/* Certifies an image for contexts of exactly `size` bytes, by a bound that is paid for: the image as it stands, where the deep search finds such a
 * certificate, else hardened. `wish` may be null: a bound of 1,000,000, as many turns as stay within it, and all else 0. BPF_YES: the first
 * certified->image_len bytes of `made` are an image, and the first certified->certificate_len bytes of `text` a certificate, of which bpf_verify
 * and bpf_load say yes, with the bound that is told. Unless `unproved` is 1, the image ends with the old one's number on each context on which that one
 * ends with a number, comes to no instruction more than certified->turns times, and goes by no other register than r10 to the lowest
 * certified->untouched bytes of a frame. BPF_TOO_SMALL: *certified says what there is, and `made` or `text`, which may be null with the length 0, has
 * less room. BPF_IMAGE_MOST bytes do for the one, and bpf_infer_size(BPF_IMAGE_MOST) for the other. BPF_NO: *refusal says why, by E or H; H14 is a bound
 * that is too great. BPF_NO_MEMORY. BPF_BAD_CALL: an order, `padded` or `unproved` that isn't one, or `size` above 4,096. BPF_BAD_MEMORY: no bytes,
 * `made` or `text` that lies in the image or in the other one, or an answer that lies in one of the three. */
static inline int32_t bpf_certify(const void *image, size_t image_len, uint32_t order, uint32_t size, const struct bpf_wish *wish, void *made,
                                  size_t made_len, char *text, size_t text_len, struct bpf_certified *certified, struct bpf_refusal *refusal) {
    struct bpf_certify_asked asked = {order, size, {1000000, 0, 0, 0, 0}};
    struct bpf_certified told = {0, 0, 0, 0, 0, 0, 0};
    struct bpf_refusal why = {0, 0, 0, 0};
    uint8_t no_image = 0, no_text = 0;
    int32_t answer;
    if (!bpf_are_bytes(image, image_len) || !bpf_are_bytes(made, made_len) || !bpf_are_bytes(text, text_len)) return BPF_BAD_MEMORY;
    if (!bpf_may_make(made, made_len, text, text_len, certified, sizeof *certified, refusal, image, image_len)) return BPF_BAD_MEMORY;
    if (wish) {
        uint32_t usual = asked.wish.bound;
        asked.wish = *wish;
        if (!asked.wish.bound) asked.wish.bound = usual;
    }
    answer = bpf_host_certify(bpf_bytes(image), image_len, &asked, made ? (uint8_t *)made : &no_image, made_len,
                              text ? (uint8_t *)text : &no_text, text_len, &told, &why);
    if ((answer == BPF_YES || answer == BPF_TOO_SMALL) && certified) *certified = told;
    if (answer == BPF_NO && refusal) *refusal = why;
    return answer;
}

/* How many bytes of memory do for the certificate of a filter of so many instructions, so that nothing need be converted twice; most take far
 * less. An image takes at most BPF_IMAGE_MOST bytes. */
static inline size_t bpf_convert_size(size_t count) {
    return bpf_host_convert_size(count);
}

/* Makes an image of a filter of classic BPF: `count` instructions of eight bytes each, in this machine's order, as pcap_compile makes them (bf_insns and
 * bf_len of its `struct bpf_program`), and `struct sock_filter` has them. Contexts have exactly `size` bytes, in the form of enum bpf_form. BPF_YES:
 * the first converted->image_len bytes of `made` are an image, and the first converted->certificate_len bytes of `text` a certificate, of which
 * bpf_verify and bpf_load say yes, with the bound that is told. On each such context the image ends with what the filter answers: of how many bytes of
 * the packet are accepted, 0 for none, and of seccomp what is to be done with the call. BPF_TOO_SMALL: *converted says what there is, and `made` or
 * `text`, which may be null with the length 0, has less room. BPF_IMAGE_MOST bytes do for the one, and bpf_convert_size(count) for the other. BPF_NO:
 * *refusal says why, by B, and at which instruction. BPF_NO_MEMORY. BPF_BAD_CALL: an order or a form that isn't one, or a size that no context of the
 * form has: above 4,096, of blocks below 8, with extensions below 72, of seccomp other than 64. BPF_BAD_MEMORY: no instructions where there is a count, `made` or `text` that
 * lies in them or in the other one, or an answer that lies in one of the three. No search is made: the time is in proportion to the filter. */
static inline int32_t bpf_convert(const void *filter, size_t count, uint32_t form, uint32_t size, uint32_t order, void *made, size_t made_len,
                                  char *text, size_t text_len, struct bpf_converted *converted, struct bpf_refusal *refusal) {
    struct bpf_convert_asked asked = {bpf_order_here(), form, size, order};
    struct bpf_converted told = {0, 0, 0};
    struct bpf_refusal why = {0, 0, 0, 0};
    uint8_t no_image = 0, no_text = 0;
    int32_t answer;
    if (count > (size_t)PTRDIFF_MAX / 8 || !bpf_are_bytes(filter, 8 * count)) return BPF_BAD_MEMORY;
    if (!bpf_are_bytes(made, made_len) || !bpf_are_bytes(text, text_len)) return BPF_BAD_MEMORY;
    if (!bpf_may_make(made, made_len, text, text_len, converted, sizeof *converted, refusal, filter, 8 * count)) return BPF_BAD_MEMORY;
    answer = bpf_host_convert(bpf_bytes(filter), 8 * count, &asked, made ? (uint8_t *)made : &no_image, made_len,
                              text ? (uint8_t *)text : &no_text, text_len, &told, &why);
    if ((answer == BPF_YES || answer == BPF_TOO_SMALL) && converted) *converted = told;
    if (answer == BPF_NO && refusal) *refusal = why;
    return answer;
}

/* Whether notes and a certificate show that a new image keeps the meaning of an old one. BPF_YES: the certificate certifies the new image with the bound that
 * *following tells. On each context on which the old one ends with a number, the new one ends with that number: on those, and by the runs, of which
 * *following tells. The first line of the notes says which these are; look whether they are yours. BPF_NO: *refusal says why, by E (the old image where
 * `condition` is 0, the new one where it is 1), N (the notes), K (the certificate), C (the new image by the certificate) or M, the first of these that
 * fails. BPF_NO_MEMORY. BPF_BAD_CALL: an order that isn't one. BPF_BAD_MEMORY: no bytes, or an answer that lies in what is read. `bpf harden .. --notes
 * FILE --certificate FILE` writes both of what it hardens. */
static inline int32_t bpf_follows(const void *old_image, size_t old_len, const void *new_image, size_t new_len, uint32_t order,
                                  const void *notes, size_t notes_len, const void *certificate, size_t certificate_len,
                                  struct bpf_following *following, struct bpf_refusal *refusal) {
    struct bpf_following shown = {0, 0, 0, 0, 0};
    struct bpf_refusal why = {0, 0, 0, 0};
    int32_t answer;
    if (!bpf_are_bytes(old_image, old_len) || !bpf_are_bytes(new_image, new_len)) return BPF_BAD_MEMORY;
    if (!bpf_are_bytes(notes, notes_len) || !bpf_are_bytes(certificate, certificate_len)) return BPF_BAD_MEMORY;
    if (!bpf_is_apart(following, sizeof *following, old_image, old_len, new_image, new_len)) return BPF_BAD_MEMORY;
    if (!bpf_is_apart(following, sizeof *following, notes, notes_len, certificate, certificate_len)) return BPF_BAD_MEMORY;
    if (!bpf_is_apart(refusal, sizeof *refusal, old_image, old_len, new_image, new_len)) return BPF_BAD_MEMORY;
    if (!bpf_is_apart(refusal, sizeof *refusal, notes, notes_len, certificate, certificate_len)) return BPF_BAD_MEMORY;
    answer = bpf_host_follows(bpf_bytes(old_image), old_len, bpf_bytes(new_image), new_len, order, bpf_bytes(notes), notes_len, bpf_bytes(certificate),
                              certificate_len, &shown, &why);
    if (answer == BPF_YES && following) *following = shown;
    if (answer == BPF_NO && refusal) *refusal = why;
    return answer;
}

/* Whether a run of an image on a context ends at a trap: at an EXIT that the notes don't have stand for one of the old program's. The run is made on the
 * exact machine, for at most `most` instructions. BPF_YES: *trap is 1 if it does; it is 0 if the run ends at another EXIT, at a fault, or not so soon.
 * BPF_NO: *refusal says why, by E (the image) or N (the notes), the first of these that fails. BPF_NO_MEMORY: while the notes were read. BPF_BAD_CALL: an
 * order that isn't one. BPF_BAD_LENGTH: a context of more than 4,096 bytes. BPF_BAD_MEMORY: no bytes, or an answer that lies in what is read. *trap stays
 * but for BPF_YES, and *refusal but for BPF_NO. Nothing here looks whether the notes match the image: bpf_follows does. */
static inline int32_t bpf_ends_at_trap(const void *image, size_t image_len, uint32_t order, const void *notes, size_t notes_len,
                                       const void *context, size_t context_len, uint64_t most, uint32_t *trap, struct bpf_refusal *refusal) {
    struct bpf_refusal why = {0, 0, 0, 0};
    uint32_t told = 0;
    int32_t answer;
    if (!bpf_are_bytes(image, image_len) || !bpf_are_bytes(notes, notes_len) || !bpf_are_bytes(context, context_len)) return BPF_BAD_MEMORY;
    if (!bpf_is_apart(trap, sizeof *trap, image, image_len, notes, notes_len)) return BPF_BAD_MEMORY;
    if (!bpf_is_apart(trap, sizeof *trap, context, context_len, NULL, 0)) return BPF_BAD_MEMORY;
    if (!bpf_is_apart(refusal, sizeof *refusal, image, image_len, notes, notes_len)) return BPF_BAD_MEMORY;
    if (!bpf_is_apart(refusal, sizeof *refusal, context, context_len, NULL, 0)) return BPF_BAD_MEMORY;
    answer = bpf_host_ends_at_trap(bpf_bytes(image), image_len, order, bpf_bytes(notes), notes_len, bpf_bytes(context), context_len, most, &told, &why);
    if (answer == BPF_YES && trap) *trap = told;
    if (answer == BPF_NO && refusal) *refusal = why;
    return answer;
}

/* What is shown of a program, as by the options of `bpf explain`. */
enum bpf_aspect {
    BPF_LISTING = 0, /* each instruction with what is known there, and the answer */
    BPF_SLOT = 1,    /* one instruction with the whole states before and behind it, --slot */
    BPF_GRAPH = 2    /* the control-flow graph as DOT text, --dot */
};

struct bpf_shown {
    uint32_t aspect;   /* enum bpf_aspect */
    uint32_t slot;     /* of BPF_SLOT: the instruction's */
    const void *lines; /* --lines: the lines of the source by slots, as bpf-cc writes them; null with the length 0 where there are none */
    size_t lines_len;
};

/* How many bytes of memory do for the words that explain an image of so many bytes, with a certificate and lines of the source of so many,
 * 0 where there are none: several times what the worst that is known takes. SIZE_MAX where there is no such number. Where it isn't
 * enough all the same, BPF_TOO_SMALL says what is. */
static inline size_t bpf_explain_size(size_t image_len, size_t certificate_len, size_t lines_len) {
    return bpf_host_explain_size(image_len, certificate_len, lines_len);
}

/* Explains an image with a certificate: the words of `bpf explain IN CERT`, byte for byte. `shown` may be null: the listing without lines
 * of the source. BPF_YES: they stand in the first *wanted bytes of `text`, and the certificate certifies the image. BPF_NO: they stand
 * there, and it doesn't: *refusal says why, by E, K or C. BPF_TOO_SMALL: there are *wanted bytes of them, and `text`, which may be null
 * with the length 0, is as it was. BPF_NO_MEMORY. BPF_BAD_CALL: an order or an aspect that isn't one, or lines that are no such table. BPF_BAD_MEMORY:
 * no bytes, a text that lies in what is read, or an answer in either or in the other one. Words are for people, and may be other in another
 * version. */
static inline int32_t bpf_explain(const void *image, size_t image_len, uint32_t order, const void *certificate, size_t certificate_len,
                                  const struct bpf_shown *shown, char *text, size_t text_len, size_t *wanted,
                                  struct bpf_refusal *refusal) {
    struct bpf_shown usual = {BPF_LISTING, 0, NULL, 0};
    struct bpf_refusal why = {0, 0, 0, 0};
    size_t count = 0;
    uint8_t none = 0;
    int32_t answer;
    if (!shown) shown = &usual;
    if (!bpf_are_bytes(image, image_len) || !bpf_are_bytes(certificate, certificate_len)) return BPF_BAD_MEMORY;
    if (!bpf_are_bytes(shown->lines, shown->lines_len) || !bpf_are_bytes(text, text_len)) return BPF_BAD_MEMORY;
    if (!bpf_may_tell(text, text_len, wanted, refusal, image, image_len)) return BPF_BAD_MEMORY;
    if (!bpf_may_tell(text, text_len, wanted, refusal, certificate, certificate_len)) return BPF_BAD_MEMORY;
    if (!bpf_may_tell(text, text_len, wanted, refusal, shown->lines, shown->lines_len)) return BPF_BAD_MEMORY;
    if (refusal && !bpf_is_apart(wanted, sizeof *wanted, refusal, sizeof *refusal, NULL, 0)) return BPF_BAD_MEMORY;
    answer = bpf_host_explain(bpf_bytes(image), image_len, order, bpf_bytes(certificate), certificate_len, shown->aspect, shown->slot,
                              bpf_bytes(shown->lines), shown->lines_len, text ? (uint8_t *)text : &none, text_len, &count, &why);
    if ((answer == BPF_YES || answer == BPF_NO || answer == BPF_TOO_SMALL) && wanted) *wanted = count;
    if (answer == BPF_NO && refusal) *refusal = why;
    return answer;
}

/* Explains what a search finds for an image on contexts of `least` to `most` bytes, the deep one where `deep` is 1, or else 0: the words
 * of `bpf explain IN --infer`. The answers are those of bpf_explain: BPF_YES where it finds a certificate which certifies the image,
 * BPF_NO where it doesn't, by E, I or C. BPF_BAD_CALL also: lengths or `deep` as of bpf_infer. */
static inline int32_t bpf_explain_search(const void *image, size_t image_len, uint32_t order, uint32_t least, uint32_t most,
                                         uint32_t deep, const struct bpf_shown *shown, char *text, size_t text_len, size_t *wanted,
                                         struct bpf_refusal *refusal) {
    struct bpf_shown usual = {BPF_LISTING, 0, NULL, 0};
    struct bpf_refusal why = {0, 0, 0, 0};
    size_t count = 0;
    uint8_t none = 0;
    int32_t answer;
    if (!shown) shown = &usual;
    if (!bpf_are_bytes(image, image_len) || !bpf_are_bytes(shown->lines, shown->lines_len)) return BPF_BAD_MEMORY;
    if (!bpf_are_bytes(text, text_len) || !bpf_may_tell(text, text_len, wanted, refusal, image, image_len)) return BPF_BAD_MEMORY;
    if (!bpf_may_tell(text, text_len, wanted, refusal, shown->lines, shown->lines_len)) return BPF_BAD_MEMORY;
    if (refusal && !bpf_is_apart(wanted, sizeof *wanted, refusal, sizeof *refusal, NULL, 0)) return BPF_BAD_MEMORY;
    answer = bpf_host_explain_search(bpf_bytes(image), image_len, order, least, most, deep, shown->aspect, shown->slot,
                                     bpf_bytes(shown->lines), shown->lines_len, text ? (uint8_t *)text : &none, text_len, &count, &why);
    if ((answer == BPF_YES || answer == BPF_NO || answer == BPF_TOO_SMALL) && wanted) *wanted = count;
    if (answer == BPF_NO && refusal) *refusal = why;
    return answer;
}

/* Explains an image by itself: the words of `bpf explain IN`, or with `graph` 1, else 0, those of `bpf explain IN --dot`. The answers are
 * those of bpf_explain: BPF_YES of an image, BPF_NO of bytes that are none, by E. */
static inline int32_t bpf_explain_image(const void *image, size_t image_len, uint32_t order, uint32_t graph, char *text,
                                        size_t text_len, size_t *wanted, struct bpf_refusal *refusal) {
    struct bpf_refusal why = {0, 0, 0, 0};
    size_t count = 0;
    uint8_t none = 0;
    int32_t answer;
    if (!bpf_are_bytes(image, image_len) || !bpf_are_bytes(text, text_len)) return BPF_BAD_MEMORY;
    if (!bpf_may_tell(text, text_len, wanted, refusal, image, image_len)) return BPF_BAD_MEMORY;
    if (refusal && !bpf_is_apart(wanted, sizeof *wanted, refusal, sizeof *refusal, NULL, 0)) return BPF_BAD_MEMORY;
    answer = bpf_host_explain_image(bpf_bytes(image), image_len, order, graph, text ? (uint8_t *)text : &none, text_len, &count, &why);
    if ((answer == BPF_YES || answer == BPF_NO || answer == BPF_TOO_SMALL) && wanted) *wanted = count;
    if (answer == BPF_NO && refusal) *refusal = why;
    return answer;
}

/* What a refusal or a fault says in English, as snprintf gives it: `text` gets as much as has room, and a 0 behind it; the answer
 * is the length of the whole text without the 0, and 0 where there is no such refusal. With text_len 0, `text` may be null. */
static inline size_t bpf_refusal_text(uint32_t kind, uint32_t number, char *text, size_t text_len) {
    uint8_t none = 0;
    size_t room, len;
    if (!bpf_are_bytes(text, text_len)) return 0;
    room = text_len ? text_len - 1 : 0;
    len = bpf_host_refusal_text(kind, number, text ? (uint8_t *)text : &none, room);
    if (text_len) text[len < room ? len : room] = 0;
    return len;
}

/* What an answer below 0 says in English, as bpf_refusal_text gives it; 0 bytes of any other answer. */
static inline size_t bpf_answer_text(int32_t answer, char *text, size_t text_len) {
    uint8_t none = 0;
    size_t room, len;
    if (!bpf_are_bytes(text, text_len)) return 0;
    room = text_len ? text_len - 1 : 0;
    len = bpf_host_answer_text(answer, text ? (uint8_t *)text : &none, room);
    if (text_len) text[len < room ? len : room] = 0;
    return len;
}

#ifdef __cplusplus
}
#endif

#endif
