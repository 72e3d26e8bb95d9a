/* hosts.c: a host that is looked at by hosts.py. `table` answers lines of standard input as the command answers its words,
 * each with the command's status in front; `bad` makes the calls that no caller should; `memory` refuses each growth of memory in
 * turn; `threads` makes the calls in eight threads, which share what is read; `many` runs one prepared program a million times. */
#include <bpf.h>
#include <pthread.h>
#include <stdio.h>
#include <stdlib.h>
#include <string.h>

struct bytes {
    uint8_t *at;
    size_t len;
};

/* Memory of exactly this size, so that the sanitizer sees each byte beyond it. */
static struct bytes of_size(size_t len) {
    struct bytes b = {malloc(len ? len : 1), len};
    if (!b.at) abort();
    return b;
}

static struct bytes read_file(const char *name) {
    FILE *file = fopen(name, "rb");
    struct bytes b;
    if (!file || fseek(file, 0, SEEK_END)) abort();
    b = of_size((size_t)ftell(file));
    rewind(file);
    if (fread(b.at, 1, b.len, file) != b.len) abort();
    fclose(file);
    return b;
}

static struct bytes from_hex(const char *hex) {
    struct bytes b = of_size(strcmp(hex, "none") ? strlen(hex) / 2 : 0);
    for (size_t i = 0; i < b.len; i++) {
        unsigned byte;
        if (sscanf(hex + 2 * i, "%2x", &byte) != 1) abort();
        b.at[i] = (uint8_t)byte;
    }
    return b;
}

/* A program ready to run, and what is promised of it. */
struct prepared {
    uint64_t *words;
    size_t len;
    struct bpf_verdict verdict;
};

static struct prepared prepare(const struct bytes *image, uint32_t order, struct bpf_verdict verdict) {
    struct prepared p = {NULL, bpf_prepared_size(image->len), verdict};
    p.words = malloc(p.len * sizeof *p.words);
    if (!p.words || bpf_prepare(image->at, image->len, order, p.words, p.len) != BPF_YES) abort();
    return p;
}

/* ---- the table */

static int say_refusal(const struct bpf_refusal *why) {
    char text[128];
    if (!bpf_refusal_text(why->kind, why->number, text, sizeof text)) abort();
    if (why->condition)
        printf("1 no I%u (C%u) at slot %u\n", (unsigned)why->number, (unsigned)why->condition, (unsigned)why->place);
    else
        printf("1 no %c%u at %s %u\n", (int)why->kind, (unsigned)why->number,
               why->kind == BPF_CERTIFICATE ? "line" : "slot", (unsigned)why->place);
    return 0;
}

static void say_lengths(const struct bpf_verdict *v) {
    printf(v->least == v->most ? "%u" : "%u..%u", (unsigned)v->least, (unsigned)v->most);
}

static void say_check(uint32_t order, const struct bytes *image, const struct bytes *certificate) {
    struct bpf_verdict v;
    struct bpf_refusal why;
    if (bpf_verify(image->at, image->len, order, certificate->at, certificate->len, &v, &why) == BPF_NO) {
        say_refusal(&why);
        return;
    }
    printf("0 yes length ");
    say_lengths(&v);
    printf(" bound %u\n", (unsigned)v.bound);
}

static void say_run(uint32_t order, const struct bytes *image, const struct bytes *context, uint64_t fuel) {
    struct bpf_outcome end;
    char text[128];
    if (bpf_run(image->at, image->len, order, context->at, context->len, fuel, &end) == BPF_BAD_LENGTH) {
        puts("2 context too long");
        return;
    }
    if (end.kind != BPF_NOT_RUN) {
        struct bpf_outcome again = {7, 7, 7, 7, 7};
        struct prepared p = prepare(image, order, (struct bpf_verdict){0, 0, 0});
        if (bpf_run_prepared(p.words, p.len, context->at, context->len, fuel, &again) != BPF_YES) abort();
        if (memcmp(&again, &end, sizeof end)) abort();
        free(p.words);
    }
    switch (end.kind) {
    case BPF_DONE: printf("0 done %llu steps %llu\n", (unsigned long long)end.value, (unsigned long long)end.steps); break;
    case BPF_FAULTED:
        if (!bpf_refusal_text(BPF_FAULT, end.number, text, sizeof text)) abort();
        printf("1 fault F%u at slot %u steps %llu\n", (unsigned)end.number, (unsigned)end.slot, (unsigned long long)end.steps);
        break;
    case BPF_OUT_OF_FUEL: puts("1 out of fuel"); break;
    default: printf("1 no E%u at slot %u\n", (unsigned)end.number, (unsigned)end.slot);
    }
}

/* A handle gives the same value, takes no context that is one byte beyond its range, and isn't written where the bound isn't paid for. */
static void run_loaded(uint32_t order, const struct bytes *image, const struct bytes *certificate, const struct bytes *context,
                       struct bpf_verdict v, uint64_t want) {
    static const uint8_t beyond[4097];
    size_t len = bpf_loaded_size(image->len);
    struct bytes words = of_size(8 * len);
    struct bpf_verdict told = {7, 7, 7};
    uint64_t value = 7;
    memset(words.at, 7, words.len);
    if (bpf_load(image->at, image->len, order, certificate->at, certificate->len, v.bound - 1, (uint64_t *)words.at, len, &told, NULL) != BPF_TOO_LONG) abort();
    for (size_t i = 0; i < words.len; i++)
        if (words.at[i] != 7) abort();
    if (memcmp(&told, &v, sizeof v)) abort();
    if (bpf_load(image->at, image->len, order, certificate->at, certificate->len, v.bound, (uint64_t *)words.at, len, &told, NULL) != BPF_YES) abort();
    if (memcmp(&told, &v, sizeof v)) abort();
    if (bpf_run_loaded((uint64_t *)words.at, len, beyond, v.most + 1, &value) != BPF_BAD_LENGTH || value != 7) abort();
    if (v.least && (bpf_run_loaded((uint64_t *)words.at, len, beyond, v.least - 1, &value) != BPF_BAD_LENGTH || value != 7)) abort();
    if (bpf_run_loaded((uint64_t *)words.at, len, context->at, context->len, &value) != BPF_YES || value != want) abort();
    free(words.at);
}

static void say_run_checked(uint32_t order, const struct bytes *image, const struct bytes *certificate,
                            const struct bytes *context) {
    struct bpf_verdict v;
    struct bpf_refusal why;
    struct prepared p;
    uint64_t value = 0;
    if (bpf_verify(image->at, image->len, order, certificate->at, certificate->len, &v, &why) == BPF_NO) {
        say_refusal(&why);
        return;
    }
    if (context->len < v.least || context->len > v.most) {
        printf("1 no context of %zu bytes, want ", context->len);
        say_lengths(&v);
        puts("");
        return;
    }
    p = prepare(image, order, v);
    if (bpf_run_checked(p.words, p.len, context->at, context->len, &value) != BPF_YES) abort();
    printf("0 done %llu\n", (unsigned long long)value);
    free(p.words);
    run_loaded(order, image, certificate, context, v, value);
}

/* The size is asked for first; then the text is written, and judged. */
static void say_infer(uint32_t order, const struct bytes *image, uint32_t least, uint32_t most, const char *out) {
    size_t wanted = 0, again = 0;
    struct bpf_refusal why;
    struct bytes text;
    FILE *file;
    switch (bpf_infer(image->at, image->len, order, least, most, 0, NULL, 0, &wanted, &why)) {
    case BPF_NO: say_refusal(&why); return;
    case BPF_BAD_CALL: puts("2 most below least"); return;
    case BPF_TOO_SMALL: break;
    default: abort();
    }
    if (wanted > bpf_infer_size(image->len)) abort();
    text = of_size(wanted);
    if (bpf_infer(image->at, image->len, order, least, most, 0, (char *)text.at, wanted - 1, &again, &why) != BPF_TOO_SMALL) abort();
    if (bpf_infer(image->at, image->len, order, least, most, 0, (char *)text.at, wanted, &again, &why) != BPF_YES) abort();
    file = fopen(out, "wb");
    if (!file || again != wanted || fwrite(text.at, 1, wanted, file) != wanted) abort();
    fclose(file);
    free(text.at);
    puts("0 ");
}

/* Its words go to a file. The size is asked for first; then they are written, with a byte too few and with just enough room. */
typedef int32_t explains(const void *of, char *text, size_t text_len, size_t *wanted, struct bpf_refusal *why);

static void say_explained(explains *call, const void *of, size_t most, const char *out) {
    size_t wanted = 0, again = 0;
    struct bpf_refusal why = {7, 7, 7, 7};
    struct bytes text;
    FILE *file;
    int32_t answer;
    if (call(of, NULL, 0, &wanted, &why) != BPF_TOO_SMALL || !wanted || wanted > most) abort();
    text = of_size(wanted);
    if (call(of, (char *)text.at, wanted - 1, &again, &why) != BPF_TOO_SMALL || again != wanted || why.kind != 7) abort();
    answer = call(of, (char *)text.at, wanted, &again, &why);
    file = fopen(out, "wb");
    if (!file || again != wanted || fwrite(text.at, 1, wanted, file) != wanted) abort();
    fclose(file);
    free(text.at);
    if ((answer == BPF_NO) != (why.kind != 7) || (answer != BPF_YES && answer != BPF_NO)) abort();
    puts(answer == BPF_YES ? "0 " : "1 ");
}

/* What is explained, and how. */
struct question {
    uint32_t order, least, most, deep;
    struct bytes image, certificate;
    struct bpf_shown shown;
};

static int32_t of_certificate(const void *of, char *text, size_t text_len, size_t *wanted, struct bpf_refusal *why) {
    const struct question *q = of;
    return bpf_explain(q->image.at, q->image.len, q->order, q->certificate.at, q->certificate.len, &q->shown, text, text_len, wanted, why);
}

static int32_t of_search(const void *of, char *text, size_t text_len, size_t *wanted, struct bpf_refusal *why) {
    const struct question *q = of;
    return bpf_explain_search(q->image.at, q->image.len, q->order, q->least, q->most, q->deep, &q->shown, text, text_len, wanted, why);
}

static int32_t of_image(const void *of, char *text, size_t text_len, size_t *wanted, struct bpf_refusal *why) {
    const struct question *q = of;
    return bpf_explain_image(q->image.at, q->image.len, q->order, q->shown.aspect == BPF_GRAPH, text, text_len, wanted, why);
}

/* explain ORDER IMAGE ASPECT SLOT LINES OUT [CERTIFICATE | LEAST MOST DEEP]; `none` for no lines. */
static void say_explain(uint32_t order, char **word) {
    struct bytes lines = {NULL, 0};
    struct question q = {order, 0, 0, 0, read_file(word[0]), {NULL, 0}, {(uint32_t)atol(word[1]), (uint32_t)atol(word[2]), NULL, 0}};
    if (strcmp(word[3], "none")) lines = read_file(word[3]);
    q.shown.lines = lines.at, q.shown.lines_len = lines.len;
    if (word[5] && !word[6]) q.certificate = read_file(word[5]);
    if (word[6]) q.least = (uint32_t)atol(word[5]), q.most = (uint32_t)atol(word[6]), q.deep = (uint32_t)atol(word[7]);
    say_explained(word[6] ? of_search : word[5] ? of_certificate : of_image, &q, bpf_explain_size(q.image.len, q.certificate.len, lines.len), word[4]);
    free(q.image.at), free(q.certificate.at), free(lines.at);
}

/* alone ORDER IMAGE LENGTH CONTEXT: from an image to its answer by the library alone, which searches deeply, loads and runs. */
static void say_alone(uint32_t order, const struct bytes *image, uint32_t length, const struct bytes *context) {
    static char text[65536];
    struct bpf_verdict v;
    struct bpf_refusal why;
    size_t wanted = 0, len = bpf_loaded_size(image->len);
    struct bytes words = of_size(8 * len);
    uint64_t value = 0;
    if (bpf_infer(image->at, image->len, order, length, length, 1, text, sizeof text, &wanted, &why) != BPF_YES) abort();
    if (bpf_load(image->at, image->len, order, text, wanted, UINT32_MAX, (uint64_t *)words.at, len, &v, &why) != BPF_YES) abort();
    if (bpf_run_loaded((uint64_t *)words.at, len, context->at, context->len, &value) != BPF_YES) abort();
    printf("0 done %llu\n", (unsigned long long)value);
    free(words.at);
}

/* follows ORDER OLD NEW NOTES CERTIFICATE */
static void say_follows(uint32_t order, char **word) {
    struct bytes old = read_file(word[0]), new = read_file(word[1]), notes = read_file(word[2]), certificate = read_file(word[3]);
    struct bpf_following shown;
    struct bpf_refusal why;
    switch (bpf_follows(old.at, old.len, new.at, new.len, order, notes.at, notes.len, certificate.at, certificate.len, &shown, &why)) {
    case BPF_NO:
        if (!bpf_refusal_text(why.kind, why.number, NULL, 0)) abort();
        printf("1 no %c%u%s at %s %u\n", (int)why.kind, (unsigned)why.number, why.kind != BPF_IMAGE ? "" : why.condition ? " of NEW" : " of OLD",
               why.kind == BPF_NOTES || why.kind == BPF_CERTIFICATE ? "line" : "slot", (unsigned)why.place);
        break;
    case BPF_YES:
        if (shown.turns == BPF_ANY_TURNS_64) printf("0 yes length %u turns any bound %u", (unsigned)shown.size, (unsigned)shown.bound);
        else printf("0 yes length %u turns %llu bound %u", (unsigned)shown.size, (unsigned long long)shown.turns, (unsigned)shown.bound);
        if (shown.padded) printf(" padded");
        if (shown.untouched) printf(" untouched %u", (unsigned)shown.untouched);
        puts("");
        break;
    default: abort();
    }
    free(old.at), free(new.at), free(notes.at), free(certificate.at);
}

/* traps ORDER IMAGE NOTES CONTEXT STEPS: a run with notes */
static void say_traps(uint32_t order, char **word) {
    struct bytes from = read_file(word[0]), by = read_file(word[1]), context = from_hex(word[2]);
    const uint64_t most = strtoull(word[3], NULL, 10);
    struct bpf_outcome end;
    struct bpf_refusal why = {7, 7, 7, 7};
    uint32_t trap = 7;
    switch (bpf_ends_at_trap(from.at, from.len, order, by.at, by.len, context.at, context.len, most, &trap, &why)) {
    case BPF_NO:
        if (!bpf_refusal_text(why.kind, why.number, NULL, 0) || trap != 7 || why.condition) abort();
        printf("1 no %c%u at %s %u\n", (int)why.kind, (unsigned)why.number, why.kind == BPF_NOTES ? "line" : "slot", (unsigned)why.place);
        break;
    case BPF_YES:
        if (trap > 1 || why.kind != 7) abort();
        if (bpf_run(from.at, from.len, order, context.at, context.len, most, &end) != BPF_YES) abort();
        if (trap && end.kind != BPF_DONE) abort();
        if (trap) printf("0 done %llu steps %llu trap\n", (unsigned long long)end.value, (unsigned long long)end.steps);
        else say_run(order, &from, &context, most);
        break;
    default: abort();
    }
    free(from.at), free(by.at), free(context.at);
}

/* How it is certified in exactly the room that it takes. */
static void certify_in(uint32_t order, const struct bytes *from, uint32_t size, const struct bpf_wish *wish, struct bpf_certified want, char **names) {
    struct bytes made = of_size(want.image_len), text = of_size(want.certificate_len);
    struct bpf_certified told = {7, 7, 7, 7, 7, 7, 7};
    struct bpf_verdict v;
    memset(made.at, 7, made.len), memset(text.at, 7, text.len);
    if (bpf_certify(from->at, from->len, order, size, wish, made.at, made.len - 1, (char *)text.at, text.len, &told, NULL) != BPF_TOO_SMALL) abort();
    if (bpf_certify(from->at, from->len, order, size, wish, made.at, made.len, (char *)text.at, text.len - 1, NULL, NULL) != BPF_TOO_SMALL) abort();
    for (size_t i = 0; i < made.len; i++)
        if (made.at[i] != 7) abort();
    for (size_t i = 0; i < text.len; i++)
        if (text.at[i] != 7) abort();
    if (told.image_len != want.image_len || told.certificate_len != want.certificate_len || told.bound != want.bound) abort();
    if (bpf_certify(from->at, from->len, order, size, wish, made.at, made.len, (char *)text.at, text.len, &told, NULL) != BPF_YES) abort();
    if (told.turns != want.turns || told.untouched != want.untouched || told.is_rewritten != want.is_rewritten || told.is_shown != want.is_shown) abort();
    if (bpf_verify(made.at, made.len, order, text.at, text.len, &v, NULL) != BPF_YES || v.least != size || v.most != size || v.bound != want.bound) abort();
    for (int i = 0; i < 2; i++) {
        FILE *file = fopen(names[i], "wb");
        struct bytes *it = i ? &text : &made;
        if (!file || fwrite(it->at, 1, it->len, file) != it->len || fclose(file)) abort();
    }
    free(made.at), free(text.at);
}

/* certify ORDER IMAGE SIZE BOUND TURNS PADDED UNPROVED OUT CERT; the sizes are asked for first. */
static void say_certify(uint32_t order, char **word) {
    struct bytes from = read_file(word[0]);
    const uint32_t size = (uint32_t)atol(word[1]);
    const struct bpf_wish wish = {(uint32_t)strtoul(word[2], NULL, 10), (uint32_t)strtoul(word[3], NULL, 10), 0, (uint32_t)atol(word[4]), (uint32_t)atol(word[5])};
    struct bpf_certified told = {7, 7, 7, 7, 7, 7, 7};
    struct bpf_refusal why = {7, 7, 7, 7};
    switch (bpf_certify(from.at, from.len, order, size, &wish, NULL, 0, NULL, 0, &told, &why)) {
    case BPF_NO:
        if (!bpf_refusal_text(why.kind, why.number, NULL, 0) || told.image_len != 7) abort();
        if (why.number == 14 && why.condition <= wish.bound) abort();
        printf("1 no %c%u at slot %u\n", (int)why.kind, (unsigned)why.number, (unsigned)why.place);
        break;
    case BPF_TOO_SMALL:
        if (why.kind != 7 || told.image_len > BPF_IMAGE_MOST || told.certificate_len > bpf_infer_size(told.image_len)) abort();
        certify_in(order, &from, size, &wish, told, word + 6);
        printf("0 yes length %u bound %u", (unsigned)size, (unsigned)told.bound);
        if (told.is_rewritten && told.turns == BPF_ANY_TURNS) printf(" hardened turns any");
        else if (told.is_rewritten) printf(" hardened turns %u", (unsigned)told.turns);
        if (told.is_rewritten && wish.padded) printf(" padded");
        if (told.untouched) printf(" untouched %u", (unsigned)told.untouched);
        puts(told.is_shown ? "" : " unproved");
        break;
    default: abort();
    }
    free(from.at);
}

/* How it is converted in exactly the room that it takes. */
static void convert_in(uint32_t order, const struct bytes *from, uint32_t form, uint32_t size, struct bpf_converted want, char **names) {
    const size_t count = from->len / 8;
    struct bytes made = of_size(want.image_len), text = of_size(want.certificate_len);
    struct bpf_converted told = {7, 7, 7};
    struct bpf_verdict v;
    memset(made.at, 7, made.len), memset(text.at, 7, text.len);
    if (bpf_convert(from->at, count, form, size, order, made.at, made.len - 1, (char *)text.at, text.len, &told, NULL) != BPF_TOO_SMALL) abort();
    if (bpf_convert(from->at, count, form, size, order, made.at, made.len, (char *)text.at, text.len - 1, NULL, NULL) != BPF_TOO_SMALL) abort();
    for (size_t i = 0; i < made.len; i++)
        if (made.at[i] != 7) abort();
    for (size_t i = 0; i < text.len; i++)
        if (text.at[i] != 7) abort();
    if (told.image_len != want.image_len || told.certificate_len != want.certificate_len || told.bound != want.bound) abort();
    if (bpf_convert(from->at, count, form, size, order, made.at, made.len, (char *)text.at, text.len, &told, NULL) != BPF_YES) abort();
    if (told.image_len != want.image_len || told.certificate_len != want.certificate_len || told.bound != want.bound) abort();
    if (bpf_verify(made.at, made.len, order, text.at, text.len, &v, NULL) != BPF_YES || v.least != size || v.most != size || v.bound != want.bound) abort();
    for (int i = 0; i < 2; i++) {
        FILE *file = fopen(names[i], "wb");
        struct bytes *it = i ? &text : &made;
        if (!file || fwrite(it->at, 1, it->len, file) != it->len || fclose(file)) abort();
    }
    free(made.at), free(text.at);
}

/* convert ORDER FILTER FORM SIZE OUT CERT, with the instructions in this machine's order; the sizes are asked for first. */
static void say_convert(uint32_t order, char **word) {
    struct bytes from = read_file(word[0]);
    const uint32_t form = (uint32_t)atol(word[1]), size = (uint32_t)atol(word[2]);
    struct bpf_converted told = {7, 7, 7};
    struct bpf_refusal why = {7, 7, 7, 7};
    switch (bpf_convert(from.at, from.len / 8, form, size, order, NULL, 0, NULL, 0, &told, &why)) {
    case BPF_NO:
        if (!bpf_refusal_text(why.kind, why.number, NULL, 0) || told.image_len != 7 || why.kind != BPF_CLASSIC || why.condition) abort();
        printf("1 no %c%u at instruction %u\n", (int)why.kind, (unsigned)why.number, (unsigned)why.place);
        break;
    case BPF_TOO_SMALL:
        if (why.kind != 7 || told.image_len > BPF_IMAGE_MOST || told.certificate_len > bpf_convert_size(from.len / 8)) abort();
        convert_in(order, &from, form, size, told, word + 3);
        printf("0 yes length %u bound %u\n", (unsigned)size, (unsigned)told.bound);
        break;
    default: abort();
    }
    free(from.at);
}

static void answer(char **word) {
    uint32_t order = strcmp(word[1], "big") ? BPF_LITTLE : BPF_BIG;
    struct bytes image = {NULL, 0}, second = {NULL, 0}, third = {NULL, 0};
    if (!strcmp(word[0], "explain")) {
        say_explain(order, word + 2);
        return;
    }
    if (!strcmp(word[0], "follows")) {
        say_follows(order, word + 2);
        return;
    }
    if (!strcmp(word[0], "traps")) {
        say_traps(order, word + 2);
        return;
    }
    if (!strcmp(word[0], "certify")) {
        say_certify(order, word + 2);
        return;
    }
    if (!strcmp(word[0], "convert")) {
        say_convert(order, word + 2);
        return;
    }
    image = read_file(word[2]);
    if (!strcmp(word[0], "check")) {
        second = read_file(word[3]);
        say_check(order, &image, &second);
    } else if (!strcmp(word[0], "run")) {
        second = from_hex(word[3]);
        say_run(order, &image, &second, strtoull(word[4], NULL, 10));
    } else if (!strcmp(word[0], "run-checked")) {
        second = read_file(word[3]);
        third = from_hex(word[4]);
        say_run_checked(order, &image, &second, &third);
    } else if (!strcmp(word[0], "alone")) {
        second = from_hex(word[4]);
        say_alone(order, &image, (uint32_t)atol(word[3]), &second);
    } else {
        say_infer(order, &image, (uint32_t)atol(word[3]), (uint32_t)atol(word[4]), word[5]);
    }
    free(image.at), free(second.at), free(third.at);
}

static int table(void) {
    static char line[1 << 14];
    while (fgets(line, sizeof line, stdin)) {
        char *word[12] = {0};
        int count = 0;
        for (char *at = strtok(line, " \n"); at && count < 11; at = strtok(NULL, " \n")) word[count++] = at;
        answer(word);
    }
    return 0;
}

/* ---- what refusals say */

static int texts(void) {
    char text[128];
    for (const char *kind = "ABCEFHIKMNP"; *kind; kind++)
        for (uint32_t n = 1; bpf_refusal_text((uint32_t)*kind, n, text, sizeof text); n++) printf("%c%u %s\n", *kind, n, text);
    return 0;
}

/* ---- calls that no caller should make */

static int wrong;

static void wants(const char *what, long got, long want) {
    if (got != want) {
        printf("%s: %ld, not %ld\n", what, got, want);
        wrong++;
    }
}

#define WANTS(call, want) wants(#call, (long)(call), (long)(want))

static const uint8_t image[16] = {0xb7, 0, 0, 0, 0, 0, 0, 0, 0x95}; /* r0 = 0; exit */
static const char certificate[] = "bpfcert 1 0 2\nfn 0 1 *\nat 0 2\nend\n";
static const uint8_t no_image[16] = {0xff};
#define IMAGE image, sizeof image
#define NO_IMAGE no_image, sizeof no_image
#define CERTIFICATE certificate, sizeof certificate - 1
/* Of the image in the place of itself. */
static const char notes[] = "bpfnotes 2 length 0 turns 65536 untouched 0\n0 old 0\n1 old 1 r0\n";
#define NOTES notes, sizeof notes - 1
#define HUGE_LEN ((size_t)PTRDIFF_MAX + 1)

static void bad_checks(void) {
    struct bpf_verdict v = {7, 7, 7};
    struct bpf_refusal why = {7, 7, 7, 7};
    WANTS(bpf_verify(IMAGE, BPF_LITTLE, CERTIFICATE, NULL, NULL), BPF_YES);
    WANTS(bpf_verify(NULL, 16, BPF_LITTLE, CERTIFICATE, &v, &why), BPF_BAD_MEMORY);
    WANTS(bpf_verify(IMAGE, BPF_LITTLE, NULL, 9, &v, &why), BPF_BAD_MEMORY);
    WANTS(bpf_verify(image, HUGE_LEN, BPF_LITTLE, CERTIFICATE, &v, &why), BPF_BAD_MEMORY);
    WANTS(bpf_verify(IMAGE, BPF_LITTLE, certificate, SIZE_MAX, &v, &why), BPF_BAD_MEMORY);
    WANTS(bpf_verify(IMAGE, 2, CERTIFICATE, &v, &why), BPF_BAD_CALL);
    WANTS(bpf_verify(IMAGE, UINT32_MAX, CERTIFICATE, &v, &why), BPF_BAD_CALL);
    WANTS(v.least == 7 && why.kind == 7, 1);
    WANTS(bpf_verify(NULL, 0, BPF_LITTLE, CERTIFICATE, &v, &why), BPF_NO);
    WANTS(why.kind == BPF_IMAGE && why.number == 1 && v.least == 7, 1);
    WANTS(bpf_verify(IMAGE, BPF_BIG, NULL, 0, &v, &why), BPF_NO);
    WANTS(why.kind == BPF_CERTIFICATE && why.number == 1 && why.place == 1, 1);
}

static void bad_runs(void) {
    static const uint8_t long_context[4097];
    struct bpf_outcome end = {7, 7, 7, 7, 7};
    WANTS(bpf_run(NULL, 16, BPF_LITTLE, NULL, 0, 9, &end), BPF_BAD_MEMORY);
    WANTS(bpf_run(IMAGE, BPF_LITTLE, NULL, 1, 9, &end), BPF_BAD_MEMORY);
    WANTS(bpf_run(IMAGE, BPF_LITTLE, long_context, 4097, 9, &end), BPF_BAD_LENGTH);
    WANTS(bpf_run(IMAGE, BPF_LITTLE, long_context, HUGE_LEN, 9, &end), BPF_BAD_MEMORY);
    WANTS(bpf_run(IMAGE, 2, NULL, 0, 9, &end), BPF_BAD_CALL);
    WANTS(end.kind == 7 && end.steps == 7, 1);
    WANTS(bpf_run(IMAGE, BPF_LITTLE, long_context, 4096, 9, NULL), BPF_YES);
    WANTS(bpf_run(IMAGE, BPF_LITTLE, NULL, 0, 1, &end), BPF_YES);
    WANTS(end.kind, BPF_OUT_OF_FUEL);
    WANTS(bpf_run(image, 15, BPF_LITTLE, NULL, 0, 1, &end), BPF_NO);
    WANTS(end.kind == BPF_NOT_RUN && end.number == 1, 1);
}

/* With fewer words than were written nothing is run, and none behind them is read: the sanitizer sees it. */
static void fewer_words(const uint64_t *words, size_t size, int32_t (*run)(const uint64_t *, size_t, const void *, size_t, uint64_t *)) {
    for (size_t len = 0; len < size; len++) {
        struct bytes part = of_size(8 * len);
        uint64_t value = 7;
        memcpy(part.at, words, part.len);
        WANTS(run((uint64_t *)part.at, len, NULL, 0, &value), BPF_BAD_WORDS);
        WANTS(value, 7);
        free(part.at);
    }
}

static void bad_preparing(void) {
    uint64_t words[8] = {7, 7, 7, 7, 7, 7, 7, 7};
    size_t size = bpf_prepared_size(sizeof image);
    uint64_t value = 7;
    WANTS(size > 0 && size <= 8, 1);
    WANTS(bpf_prepared_size(0), 0);
    WANTS(bpf_prepared_size(12), 0);
    WANTS(bpf_prepared_size(524296), 0);
    WANTS(bpf_prepared_size(SIZE_MAX), 0);
    WANTS(bpf_prepared_size(524288) > 0, 1);
    WANTS(bpf_prepare(NULL, 16, BPF_LITTLE, words, 8), BPF_BAD_MEMORY);
    WANTS(bpf_prepare(IMAGE, BPF_LITTLE, NULL, 8), BPF_BAD_MEMORY);
    WANTS(bpf_prepare(IMAGE, BPF_LITTLE, words, SIZE_MAX), BPF_BAD_MEMORY);
    WANTS(bpf_prepare(IMAGE, BPF_LITTLE, (uint64_t *)(void *)((char *)words + 1), 7), BPF_BAD_MEMORY);
    WANTS(bpf_prepare(IMAGE, 2, words, 8), BPF_BAD_CALL);
    WANTS(bpf_prepare(IMAGE, 7, words, 1), BPF_BAD_CALL);
    WANTS(bpf_prepare(words, 16, BPF_LITTLE, words, 1), BPF_BAD_MEMORY);
    WANTS(bpf_prepare(words + 1, 16, BPF_LITTLE, words, 1), BPF_TOO_SMALL);
    WANTS(bpf_prepare(NO_IMAGE, BPF_LITTLE, words, size - 1), BPF_TOO_SMALL);
    WANTS(bpf_prepare(NO_IMAGE, BPF_LITTLE, words, size), BPF_NO);
    WANTS(bpf_prepare(image, 12, BPF_LITTLE, words, 0), BPF_NO);
    WANTS(bpf_prepare(IMAGE, BPF_LITTLE, words, size - 1), BPF_TOO_SMALL);
    WANTS(bpf_prepare(image, 12, BPF_LITTLE, words, 8), BPF_NO);
    WANTS(bpf_prepare(words, 16, BPF_LITTLE, words, 8), BPF_BAD_MEMORY);
    WANTS(bpf_prepare((char *)words + 8 * size - 8, 16, BPF_LITTLE, words, 8), BPF_BAD_MEMORY);
    for (int i = 0; i < 8; i++) WANTS(words[i], 7);
    WANTS(bpf_prepare(IMAGE, BPF_LITTLE, words, 8), BPF_YES);
    for (size_t i = size; i < 8; i++) WANTS(words[i], 7);
    for (int i = 2; i < 8; i++) WANTS(((uint8_t *)(words + size - 1))[i], 0); /* behind the opcodes of two slots */
    WANTS(bpf_run_checked(NULL, 8, NULL, 0, &value), BPF_BAD_MEMORY);
    WANTS(bpf_run_checked(words, size, NULL, 1, &value), BPF_BAD_MEMORY);
    WANTS(value, 7);
    fewer_words(words, size, bpf_run_checked);
    WANTS(bpf_run_checked(words, size, NULL, 0, NULL), BPF_YES);
    WANTS(bpf_run_checked(words, 8, NULL, 0, &value), BPF_YES);
    WANTS(value, 0);
}

static void bad_prepared_runs(void) {
    static const uint8_t long_context[4097];
    uint64_t words[8];
    size_t size = bpf_prepared_size(sizeof image);
    struct bpf_outcome end = {7, 7, 7, 7, 7};
    WANTS(bpf_prepare(IMAGE, BPF_LITTLE, words, 8), BPF_YES);
    WANTS(bpf_run_prepared(NULL, 8, NULL, 0, 9, &end), BPF_BAD_MEMORY);
    WANTS(bpf_run_prepared((uint64_t *)(void *)((char *)words + 1), 7, NULL, 0, 9, &end), BPF_BAD_MEMORY);
    WANTS(bpf_run_prepared(words, size, NULL, 1, 9, &end), BPF_BAD_MEMORY);
    WANTS(bpf_run_prepared(words, size, long_context, HUGE_LEN, 9, &end), BPF_BAD_MEMORY);
    WANTS(bpf_run_prepared(words, 8, NULL, 0, 9, (void *)(words + size)), BPF_BAD_MEMORY);
    WANTS(bpf_run_prepared(words, size, long_context, 4097, 9, &end), BPF_BAD_LENGTH);
    WANTS(bpf_run_prepared(words, 0, long_context, 4097, 9, &end), BPF_BAD_LENGTH);
    for (size_t len = 0; len < size; len++) WANTS(bpf_run_prepared(words, len, NULL, 0, 9, &end), BPF_BAD_WORDS);
    words[1] += 2;
    WANTS(bpf_run_prepared(words, size, NULL, 0, 9, &end), BPF_BAD_WORDS);
    words[1] -= 2;
    WANTS(end.kind == 7 && end.steps == 7, 1);
    WANTS(bpf_run_prepared(words, size, long_context, 4096, 9, NULL), BPF_YES);
    WANTS(bpf_run_prepared(words, size, NULL, 0, 1, &end), BPF_YES);
    WANTS(end.kind, BPF_OUT_OF_FUEL);
    WANTS(bpf_run_prepared(words, 8, NULL, 0, 2, &end), BPF_YES);
    WANTS(end.kind == BPF_DONE && end.steps == 2, 1);
}

static void bad_loading(void) {
    uint64_t words[12] = {7, 7, 7, 7, 7, 7, 7, 7, 7, 7, 7, 7};
    size_t size = bpf_loaded_size(sizeof image);
    struct bpf_verdict v = {7, 7, 7};
    struct bpf_refusal why = {7, 7, 7, 7};
    uint64_t value = 7;
    WANTS(size > bpf_prepared_size(sizeof image) && size <= 12, 1);
    WANTS(bpf_loaded_size(524296), 0);
    WANTS(bpf_loaded_size(SIZE_MAX), 0);
    WANTS(bpf_loaded_size(524288) > 0, 1);
    WANTS(bpf_load(NULL, 16, BPF_LITTLE, CERTIFICATE, 9, words, 12, &v, &why), BPF_BAD_MEMORY);
    WANTS(bpf_load(IMAGE, BPF_LITTLE, NULL, 9, 9, words, 12, &v, &why), BPF_BAD_MEMORY);
    WANTS(bpf_load(IMAGE, 2, CERTIFICATE, 9, words, 12, &v, &why), BPF_BAD_CALL);
    WANTS(bpf_load(IMAGE, 2, CERTIFICATE, 9, words, 1, &v, &why), BPF_BAD_CALL);
    WANTS(bpf_load(IMAGE, BPF_LITTLE, CERTIFICATE, 9, NULL, 12, &v, &why), BPF_BAD_MEMORY);
    WANTS(bpf_load(IMAGE, BPF_LITTLE, CERTIFICATE, 9, words, SIZE_MAX, &v, &why), BPF_BAD_MEMORY);
    WANTS(bpf_load(words, 16, BPF_LITTLE, CERTIFICATE, 9, words, 12, &v, &why), BPF_BAD_MEMORY);
    WANTS(bpf_load(IMAGE, BPF_LITTLE, words + 1, 16, 9, words, 12, &v, &why), BPF_BAD_MEMORY);
    WANTS(bpf_load(IMAGE, BPF_LITTLE, CERTIFICATE, 9, words, size - 1, &v, &why), BPF_TOO_SMALL);
    WANTS(bpf_load(NO_IMAGE, BPF_LITTLE, NULL, 0, 9, words, size - 1, &v, &why), BPF_TOO_SMALL);
    WANTS(v.least == 7 && why.kind == 7, 1);
    WANTS(bpf_load(NO_IMAGE, BPF_LITTLE, NULL, 0, 9, words, size, &v, &why), BPF_NO);
    WANTS(why.kind == BPF_IMAGE && why.number == 2 && v.least == 7, 1);
    WANTS(bpf_load(image, 12, BPF_LITTLE, CERTIFICATE, 9, words, 12, &v, &why), BPF_NO);
    WANTS(why.kind == BPF_IMAGE && why.number == 1 && v.least == 7, 1);
    WANTS(bpf_load(IMAGE, BPF_LITTLE, CERTIFICATE, 1, words, 12, &v, NULL), BPF_TOO_LONG);
    WANTS(v.least == 0 && v.most == 0 && v.bound == 2, 1);
    WANTS(bpf_load(IMAGE, BPF_LITTLE, CERTIFICATE, 1, words, 12, NULL, NULL), BPF_TOO_LONG);
    for (int i = 0; i < 12; i++) WANTS(words[i], 7);
    WANTS(bpf_load(IMAGE, BPF_LITTLE, CERTIFICATE, 2, words, 12, NULL, NULL), BPF_YES);
    for (size_t i = size; i < 12; i++) WANTS(words[i], 7);
    WANTS(bpf_run_loaded(NULL, 12, NULL, 0, &value), BPF_BAD_MEMORY);
    WANTS(bpf_run_loaded(words, size, NULL, 1, &value), BPF_BAD_MEMORY);
    WANTS(bpf_run_loaded(words, size, image, 1, &value), BPF_BAD_LENGTH);
    WANTS(value, 7);
    fewer_words(words, size, bpf_run_loaded);
    WANTS(bpf_run_loaded(words, size, NULL, 0, NULL), BPF_YES);
    WANTS(bpf_run_loaded(words, 12, NULL, 0, &value), BPF_YES);
    WANTS(value, 0);
}

/* What another version prepared or loaded isn't run, whatever else stands there, nor what none prepared. */
static void other_versions(void) {
    uint64_t words[12], value = 7;
    size_t prepared = bpf_prepared_size(sizeof image), loaded = bpf_loaded_size(sizeof image);
    WANTS(bpf_version(), BPF_HOST_VERSION);
    WANTS(bpf_prepare(IMAGE, BPF_BIG, words, 12), BPF_YES);
    WANTS(words[1], 2 * BPF_HOST_VERSION + BPF_BIG);
    WANTS(bpf_prepare(IMAGE, BPF_LITTLE, words, 12), BPF_YES);
    WANTS(words[1], 2 * BPF_HOST_VERSION + BPF_LITTLE);
    for (uint64_t version = 0; version <= 2 * BPF_HOST_VERSION + 2; version++) {
        words[1] = version;
        WANTS(bpf_run_checked(words, prepared, NULL, 0, &value), version / 2 == BPF_HOST_VERSION ? BPF_YES : BPF_BAD_WORDS);
    }
    WANTS(value, 0);
    value = 7;
    words[1] = (uint64_t)1 << 32 | 2 * BPF_HOST_VERSION;
    WANTS(bpf_run_checked(words, prepared, NULL, 0, &value), BPF_BAD_WORDS);
    WANTS(bpf_load(IMAGE, BPF_LITTLE, CERTIFICATE, 9, words, 12, NULL, NULL), BPF_YES);
    words[4] -= 2;
    WANTS(bpf_run_loaded(words, loaded, NULL, 0, &value), BPF_BAD_WORDS);
    memset(words, 0, sizeof words);
    WANTS(bpf_run_checked(words, 12, NULL, 0, &value), BPF_BAD_WORDS);
    WANTS(bpf_run_loaded(words, 12, NULL, 0, &value), BPF_BAD_WORDS);
    WANTS(bpf_run_checked(words, 1, NULL, 0, &value), BPF_BAD_WORDS);
    WANTS(bpf_run_loaded(words, 4, NULL, 0, &value), BPF_BAD_WORDS);
    WANTS(bpf_run_checked(words, 0, NULL, 0, &value), BPF_BAD_WORDS);
    WANTS(bpf_run_loaded(words, 0, NULL, 0, &value), BPF_BAD_WORDS);
    WANTS(value, 7);
}

static void bad_explanations(void) {
    const struct bpf_shown fourth = {3, 0, NULL, 0}, no_table = {BPF_LISTING, 0, "no table\n", 9}, null = {BPF_LISTING, 0, NULL, 9};
    const struct bpf_shown table = {BPF_LISTING, 0, "0 zero.c:1 return 0;\n", 21};
    char text[1024] = "as it was";
    size_t wanted = 7, again = 7;
    struct bpf_refusal why = {7, 7, 7, 7};
    union {
        size_t wanted;
        struct bpf_refusal why;
    } both;
    WANTS(bpf_explain(NULL, 16, BPF_LITTLE, CERTIFICATE, NULL, text, 1024, &wanted, &why), BPF_BAD_MEMORY);
    WANTS(bpf_explain(IMAGE, 2, CERTIFICATE, NULL, text, 1024, &wanted, &why), BPF_BAD_CALL);
    WANTS(bpf_explain(IMAGE, BPF_LITTLE, NULL, 9, NULL, text, 1024, &wanted, &why), BPF_BAD_MEMORY);
    WANTS(bpf_explain(IMAGE, BPF_LITTLE, CERTIFICATE, NULL, NULL, 9, &wanted, &why), BPF_BAD_MEMORY);
    WANTS(bpf_explain(IMAGE, BPF_LITTLE, CERTIFICATE, &fourth, text, 1024, &wanted, &why), BPF_BAD_CALL);
    WANTS(bpf_explain(IMAGE, BPF_LITTLE, CERTIFICATE, &no_table, text, 1024, &wanted, &why), BPF_BAD_CALL);
    WANTS(bpf_explain(IMAGE, BPF_LITTLE, CERTIFICATE, &null, text, 1024, &wanted, &why), BPF_BAD_MEMORY);
    WANTS(bpf_explain(text, 16, BPF_LITTLE, CERTIFICATE, NULL, text, 1024, &wanted, &why), BPF_BAD_MEMORY);
    WANTS(bpf_explain(IMAGE, BPF_LITTLE, text + 1023, 9, NULL, text, 1024, &wanted, &why), BPF_BAD_MEMORY);
    WANTS(bpf_explain(IMAGE, BPF_LITTLE, CERTIFICATE, &(const struct bpf_shown){0, 0, text, 9}, text, 1024, &wanted, &why), BPF_BAD_MEMORY);
    WANTS(bpf_explain(IMAGE, BPF_LITTLE, CERTIFICATE, NULL, text, 1024, (void *)text, &why), BPF_BAD_MEMORY);
    WANTS(bpf_explain(IMAGE, BPF_LITTLE, CERTIFICATE, NULL, text, 1024, &wanted, (void *)text), BPF_BAD_MEMORY);
    WANTS(bpf_explain(IMAGE, BPF_LITTLE, CERTIFICATE, NULL, text, 1024, &both.wanted, &both.why), BPF_BAD_MEMORY);
    WANTS(bpf_explain_search(IMAGE, 2, 0, 0, 0, NULL, text, 1024, &wanted, &why), BPF_BAD_CALL);
    WANTS(bpf_explain_search(IMAGE, BPF_LITTLE, 1, 0, 0, NULL, text, 1024, &wanted, &why), BPF_BAD_CALL);
    WANTS(bpf_explain_search(IMAGE, BPF_LITTLE, 0, 4097, 0, NULL, text, 1024, &wanted, &why), BPF_BAD_CALL);
    WANTS(bpf_explain_search(IMAGE, BPF_LITTLE, 0, 0, 2, NULL, text, 1024, &wanted, &why), BPF_BAD_CALL);
    WANTS(bpf_explain_search(IMAGE, BPF_LITTLE, 0, 0, 0, &fourth, text, 1024, &wanted, &why), BPF_BAD_CALL);
    WANTS(bpf_explain_search(IMAGE, BPF_LITTLE, 0, 0, 0, NULL, text, 1024, (void *)text, &why), BPF_BAD_MEMORY);
    WANTS(bpf_explain_image(IMAGE, 2, 0, text, 1024, &wanted, &why), BPF_BAD_CALL);
    WANTS(bpf_explain_image(IMAGE, BPF_LITTLE, 2, text, 1024, &wanted, &why), BPF_BAD_CALL);
    WANTS(bpf_explain_image(text, 16, BPF_LITTLE, 0, text, 1024, &wanted, &why), BPF_BAD_MEMORY);
    WANTS(bpf_explain_image(IMAGE, BPF_LITTLE, 0, text, 1024, &both.wanted, &both.why), BPF_BAD_MEMORY);
    WANTS(wanted == 7 && why.kind == 7 && !strcmp(text, "as it was"), 1);
    WANTS(bpf_explain(IMAGE, BPF_LITTLE, CERTIFICATE, NULL, text, 3, &wanted, &why), BPF_TOO_SMALL);
    WANTS(wanted > 7 && wanted < 1024 && why.kind == 7 && !strcmp(text, "as it was"), 1);
    WANTS(bpf_explain(IMAGE, BPF_LITTLE, CERTIFICATE, &table, text, 1024, &again, NULL), BPF_YES);
    WANTS(again > wanted, 1);
    WANTS(bpf_explain(IMAGE, BPF_LITTLE, NULL, 0, NULL, text, 1024, NULL, &why), BPF_NO);
    WANTS(why.kind == BPF_CERTIFICATE && why.number == 1, 1);
    WANTS(bpf_explain_image(image, 15, BPF_LITTLE, 0, text, 1024, NULL, &why), BPF_NO);
    WANTS(why.kind == BPF_IMAGE && why.number == 1, 1);
    WANTS(bpf_explain_search(IMAGE, BPF_LITTLE, 0, 0, 1, NULL, text, 1024, NULL, NULL), BPF_YES);
}

static void bad_following(void) {
    static const char dear[] = "bpfcert 1 0 1\nfn 0 1 *\nat 0 1\nend\n";
    static const char longer[] = "bpfnotes 2 length 1 turns 65536 untouched 0\n0 old 0\n1 old 1 r0\n";
    static const char forgetful[] = "bpfnotes 2 length 0 turns 65536 untouched 0\n0 old 0\n1 old 1\n";
    static const char more[] = "bpfnotes 2 length 0 turns 65536 untouched 0\n0 old 0\n1 old 1 r0\n2 none\n";
    struct bpf_following shown = {7, 7, 7, 7, 7};
    struct bpf_refusal why = {7, 7, 7, 7};
    WANTS(bpf_follows(NULL, 16, IMAGE, BPF_LITTLE, NOTES, CERTIFICATE, &shown, &why), BPF_BAD_MEMORY);
    WANTS(bpf_follows(IMAGE, NULL, 16, BPF_LITTLE, NOTES, CERTIFICATE, &shown, &why), BPF_BAD_MEMORY);
    WANTS(bpf_follows(IMAGE, IMAGE, BPF_LITTLE, NULL, 9, CERTIFICATE, &shown, &why), BPF_BAD_MEMORY);
    WANTS(bpf_follows(IMAGE, IMAGE, BPF_LITTLE, NOTES, NULL, 9, &shown, &why), BPF_BAD_MEMORY);
    WANTS(bpf_follows(IMAGE, IMAGE, BPF_LITTLE, NOTES, certificate, HUGE_LEN, &shown, &why), BPF_BAD_MEMORY);
    WANTS(bpf_follows(IMAGE, IMAGE, BPF_LITTLE, NOTES, CERTIFICATE, (void *)image, &why), BPF_BAD_MEMORY);
    WANTS(bpf_follows(IMAGE, IMAGE, BPF_LITTLE, NOTES, CERTIFICATE, (void *)notes, &why), BPF_BAD_MEMORY);
    WANTS(bpf_follows(IMAGE, IMAGE, BPF_LITTLE, NOTES, CERTIFICATE, (void *)certificate, &why), BPF_BAD_MEMORY);
    WANTS(bpf_follows(IMAGE, IMAGE, BPF_LITTLE, NOTES, CERTIFICATE, &shown, (void *)image), BPF_BAD_MEMORY);
    WANTS(bpf_follows(IMAGE, IMAGE, BPF_LITTLE, NOTES, CERTIFICATE, &shown, (void *)notes), BPF_BAD_MEMORY);
    WANTS(bpf_follows(IMAGE, IMAGE, BPF_LITTLE, NOTES, CERTIFICATE, &shown, (void *)certificate), BPF_BAD_MEMORY);
    WANTS(bpf_follows(IMAGE, IMAGE, 2, NOTES, CERTIFICATE, &shown, &why), BPF_BAD_CALL);
    WANTS(why.kind == 7 && shown.size == 7, 1);
    WANTS(bpf_follows(IMAGE, IMAGE, BPF_LITTLE, CERTIFICATE, NOTES, &shown, NULL), BPF_NO);
    WANTS(bpf_follows(NO_IMAGE, NO_IMAGE, BPF_LITTLE, CERTIFICATE, NOTES, &shown, &why), BPF_NO);
    WANTS(why.kind == BPF_IMAGE && !why.condition, 1);
    WANTS(bpf_follows(IMAGE, NO_IMAGE, BPF_LITTLE, CERTIFICATE, NOTES, &shown, &why), BPF_NO);
    WANTS(why.kind == BPF_IMAGE && why.condition == 1, 1);
    WANTS(bpf_follows(IMAGE, IMAGE, BPF_LITTLE, CERTIFICATE, NOTES, &shown, &why), BPF_NO);
    WANTS(why.kind == BPF_NOTES && why.number == 1 && why.place == 1 && !why.condition, 1);
    WANTS(bpf_follows(IMAGE, IMAGE, BPF_LITTLE, NOTES, NOTES, &shown, &why), BPF_NO);
    WANTS(why.kind == BPF_CERTIFICATE && why.number == 1 && why.place == 1 && !why.condition, 1);
    WANTS(bpf_follows(IMAGE, IMAGE, BPF_LITTLE, forgetful, sizeof forgetful - 1, dear, sizeof dear - 1, &shown, &why), BPF_NO);
    WANTS(why.kind, BPF_CHECK);
    WANTS(bpf_follows(IMAGE, IMAGE, BPF_LITTLE, forgetful, sizeof forgetful - 1, CERTIFICATE, &shown, &why), BPF_NO);
    WANTS(why.kind == BPF_MISMATCH && why.number == 5 && why.place == 1 && !why.condition, 1);
    WANTS(bpf_follows(IMAGE, IMAGE, BPF_LITTLE, more, sizeof more - 1, CERTIFICATE, &shown, &why), BPF_NO);
    WANTS(why.kind == BPF_MISMATCH && why.number == 8 && !why.place, 1);
    WANTS(bpf_follows(IMAGE, IMAGE, BPF_LITTLE, longer, sizeof longer - 1, CERTIFICATE, &shown, &why), BPF_NO);
    WANTS(why.kind == BPF_MISMATCH && why.number == 9 && !why.place, 1);
    WANTS(shown.size == 7 && shown.padded == 7 && shown.turns == 7 && shown.untouched == 7 && shown.bound == 7, 1);
    why.kind = 7;
    WANTS(bpf_follows(IMAGE, IMAGE, BPF_LITTLE, NOTES, CERTIFICATE, NULL, NULL), BPF_YES);
    WANTS(bpf_follows(IMAGE, IMAGE, BPF_LITTLE, NOTES, CERTIFICATE, &shown, &why), BPF_YES);
    WANTS(why.kind == 7 && !shown.size && !shown.padded && shown.turns == BPF_ANY_TURNS_64 && !shown.untouched && shown.bound == 2, 1);
}

static void bad_traps(void) {
    /* r0 is the byte whose number the context begins with; where that is above 15, the EXIT of slot 9 is a trap. */
    static const uint8_t guarded[80] = {
        0xbf, 0x19, 0, 0, 0, 0, 0, 0, 0xb7, 0x1, 0, 0, 0, 0, 0, 0,
        0x71, 0x92, 0, 0, 0, 0, 0, 0, 0xf, 0x21, 0, 0, 0, 0, 0, 0,
        0x25, 0x1, 0x3, 0, 0xf, 0, 0, 0, 0xf, 0x91, 0, 0, 0, 0, 0, 0,
        0x71, 0x10, 0, 0, 0, 0, 0, 0, 0x95, 0, 0, 0, 0, 0, 0, 0,
        0xb7, 0, 0, 0, 0, 0, 0, 0, 0x95, 0, 0, 0, 0, 0, 0, 0,
    };
    static const char by[] = "bpfnotes 2 length 16 turns 7 untouched 0\n0 old 0 extras 2 r1=0-context 0=r1-context\n"
                             "1 old 0 extras 1 r9=0-context 0=r1-context\n2 old 0 r1=r1-context r9=0-context 0=r1-context\n"
                             "3 old 1 r1=r1-context r2 r9=0-context\n4 old 2 extras 2 r1=r1-context r9=0-context\n"
                             "5 old 2 extras 1 r1=r1-context r9=0-context\n6 old 2 r1\n7 old 3 r0\n";
    static const char older[] = "bpfnotes 1 length 16 turns 7 untouched 0\n", cut[] = "bpfnotes 2 length 16 turns 7 untouched 0\n0 old\n";
    static const uint8_t inside[16] = {1}, outside[16] = {16}, long_context[4097];
    struct bpf_refusal why = {7, 7, 7, 7};
    uint32_t trap = 7;
#define GUARDED guarded, sizeof guarded
#define BY by, sizeof by - 1
    WANTS(bpf_ends_at_trap(NULL, 16, BPF_LITTLE, BY, inside, 16, 9, &trap, &why), BPF_BAD_MEMORY);
    WANTS(bpf_ends_at_trap(GUARDED, BPF_LITTLE, NULL, 9, inside, 16, 9, &trap, &why), BPF_BAD_MEMORY);
    WANTS(bpf_ends_at_trap(GUARDED, BPF_LITTLE, by, HUGE_LEN, inside, 16, 9, &trap, &why), BPF_BAD_MEMORY);
    WANTS(bpf_ends_at_trap(GUARDED, BPF_LITTLE, BY, NULL, 16, 9, &trap, &why), BPF_BAD_MEMORY);
    WANTS(bpf_ends_at_trap(GUARDED, BPF_LITTLE, BY, inside, 16, 9, (void *)guarded, &why), BPF_BAD_MEMORY);
    WANTS(bpf_ends_at_trap(GUARDED, BPF_LITTLE, BY, inside, 16, 9, (void *)by, &why), BPF_BAD_MEMORY);
    WANTS(bpf_ends_at_trap(GUARDED, BPF_LITTLE, BY, inside, 16, 9, (void *)inside, &why), BPF_BAD_MEMORY);
    WANTS(bpf_ends_at_trap(GUARDED, BPF_LITTLE, BY, inside, 16, 9, &trap, (void *)guarded), BPF_BAD_MEMORY);
    WANTS(bpf_ends_at_trap(GUARDED, BPF_LITTLE, BY, inside, 16, 9, &trap, (void *)by), BPF_BAD_MEMORY);
    WANTS(bpf_ends_at_trap(GUARDED, BPF_LITTLE, BY, inside, 16, 9, &trap, (void *)inside), BPF_BAD_MEMORY);
    WANTS(bpf_ends_at_trap(GUARDED, 2, BY, inside, 16, 9, &trap, &why), BPF_BAD_CALL);
    WANTS(bpf_ends_at_trap(NO_IMAGE, 2, CERTIFICATE, long_context, 4097, 9, &trap, &why), BPF_BAD_CALL);
    WANTS(bpf_ends_at_trap(GUARDED, BPF_LITTLE, BY, long_context, 4097, 9, &trap, &why), BPF_BAD_LENGTH);
    WANTS(bpf_ends_at_trap(NO_IMAGE, BPF_LITTLE, CERTIFICATE, long_context, 4097, 9, &trap, &why), BPF_BAD_LENGTH);
    WANTS(trap == 7 && why.kind == 7, 1);
    WANTS(bpf_ends_at_trap(NO_IMAGE, BPF_LITTLE, CERTIFICATE, inside, 16, 9, &trap, &why), BPF_NO);
    WANTS(why.kind == BPF_IMAGE && why.number == 2 && !why.condition, 1);
    WANTS(bpf_ends_at_trap(GUARDED, BPF_LITTLE, CERTIFICATE, inside, 16, 9, &trap, NULL), BPF_NO);
    WANTS(bpf_ends_at_trap(GUARDED, BPF_LITTLE, older, sizeof older - 1, inside, 16, 9, &trap, &why), BPF_NO);
    WANTS(why.kind == BPF_NOTES && why.number == 1 && why.place == 1 && !why.condition, 1);
    WANTS(bpf_ends_at_trap(GUARDED, BPF_LITTLE, cut, sizeof cut - 1, inside, 16, 9, &trap, &why), BPF_NO);
    WANTS(why.kind == BPF_NOTES && why.number == 1 && why.place == 2 && !why.condition, 1);
    WANTS(trap, 7);
    why.kind = 7;
    WANTS(bpf_ends_at_trap(GUARDED, BPF_LITTLE, BY, inside, 16, 9, NULL, NULL), BPF_YES);
    WANTS(bpf_ends_at_trap(GUARDED, BPF_LITTLE, BY, inside, 16, 9, &trap, &why), BPF_YES);
    WANTS(trap, 0);
    WANTS(bpf_ends_at_trap(GUARDED, BPF_LITTLE, BY, outside, 16, 7, &trap, &why), BPF_YES);
    WANTS(trap, 1);
    /* The run isn't at its end; it is at a fault. */
    WANTS(bpf_ends_at_trap(GUARDED, BPF_LITTLE, BY, outside, 16, 6, &trap, &why), BPF_YES);
    WANTS(trap, 0);
    trap = 7;
    WANTS(bpf_ends_at_trap(GUARDED, BPF_LITTLE, BY, NULL, 0, 9, &trap, &why), BPF_YES);
    WANTS(trap == 0 && why.kind == 7, 1);
    /* Without a note each EXIT is a trap. */
    WANTS(bpf_ends_at_trap(GUARDED, BPF_LITTLE, by, strlen("bpfnotes 2 length 16 turns 7 untouched 0\n"), inside, 16, 9, &trap, &why), BPF_YES);
    WANTS(trap, 1);
}

static void bad_certifying(void) {
    const struct bpf_wish blocks = {9, 1, 0, 2, 0}, half = {9, 1, 0, 0, 2}, one = {1, 1, 0, 0, 0}, none = {0, 0, 0, 0, 0}, most = {UINT32_MAX, UINT32_MAX, 5, 0, 1};
    uint8_t made[32] = "as it was";
    char text[256] = "as it was";
    struct bpf_certified told = {7, 7, 7, 7, 7, 7, 7};
    struct bpf_refusal why = {7, 7, 7, 7};
    WANTS(bpf_certify(NULL, 16, BPF_LITTLE, 0, NULL, made, 32, text, 256, &told, &why), BPF_BAD_MEMORY);
    WANTS(bpf_certify(image, HUGE_LEN, BPF_LITTLE, 0, NULL, made, 32, text, 256, &told, &why), BPF_BAD_MEMORY);
    WANTS(bpf_certify(IMAGE, BPF_LITTLE, 0, NULL, NULL, 32, text, 256, &told, &why), BPF_BAD_MEMORY);
    WANTS(bpf_certify(IMAGE, BPF_LITTLE, 0, NULL, made, 32, NULL, 256, &told, &why), BPF_BAD_MEMORY);
    WANTS(bpf_certify(made, 16, BPF_LITTLE, 0, NULL, made, 32, text, 256, &told, &why), BPF_BAD_MEMORY);
    WANTS(bpf_certify(text, 16, BPF_LITTLE, 0, NULL, made, 32, text, 256, &told, &why), BPF_BAD_MEMORY);
    WANTS(bpf_certify(IMAGE, BPF_LITTLE, 0, NULL, text + 128, 128, text, 129, &told, &why), BPF_BAD_MEMORY);
    WANTS(bpf_certify(IMAGE, 2, 0, NULL, made, 32, text, 256, &told, &why), BPF_BAD_CALL);
    WANTS(bpf_certify(IMAGE, BPF_LITTLE, 4097, NULL, made, 32, text, 256, &told, &why), BPF_BAD_CALL);
    WANTS(bpf_certify(IMAGE, BPF_LITTLE, 0, &blocks, made, 32, text, 256, &told, &why), BPF_BAD_CALL);
    WANTS(bpf_certify(IMAGE, BPF_LITTLE, 0, &half, made, 32, text, 256, &told, &why), BPF_BAD_CALL);
    WANTS(told.bound == 7 && why.kind == 7, 1);
    WANTS(bpf_certify(image, 15, BPF_LITTLE, 0, NULL, made, 32, text, 256, &told, &why), BPF_NO);
    WANTS(why.kind == BPF_IMAGE && why.number == 1 && told.bound == 7, 1);
    WANTS(bpf_certify(IMAGE, BPF_LITTLE, 0, &one, made, 32, text, 256, &told, &why), BPF_NO);
    WANTS(why.kind == BPF_HARDENING && why.number == 14 && why.place == 0 && why.condition == 2 && told.bound == 7, 1);
    WANTS(bpf_certify(IMAGE, BPF_LITTLE, 0, NULL, made, 15, text, 256, &told, NULL), BPF_TOO_SMALL);
    WANTS(told.image_len == 16 && told.certificate_len > 7 && told.certificate_len < 256 && told.bound == 2, 1);
    WANTS(told.turns == 0 && told.untouched == 0 && told.is_rewritten == 0 && told.is_shown == 1, 1);
    WANTS(bpf_certify(IMAGE, BPF_LITTLE, 0, NULL, made, 32, text, told.certificate_len - 1, NULL, NULL), BPF_TOO_SMALL);
    WANTS(!strcmp((char *)made, "as it was") && !strcmp(text, "as it was"), 1);
    WANTS(bpf_certify(IMAGE, BPF_LITTLE, 0, &none, made, 32, text, 256, &told, NULL), BPF_YES);
    WANTS(!memcmp(made, image, 16) && made[16] == 0 && text[told.certificate_len] == 0, 1);
    WANTS(bpf_verify(made, told.image_len, BPF_LITTLE, text, told.certificate_len, NULL, NULL), BPF_YES);
    WANTS(bpf_certify(IMAGE, BPF_LITTLE, 0, &most, made, 32, text, 256, NULL, NULL), BPF_YES);
}

/* `ip`, as tcpdump compiles it for Ethernet: 14 bytes, a type, and the answer; and instructions that are no filter. */
struct instruction {
    uint16_t code;
    uint8_t jt, jf;
    uint32_t k;
};
static const struct instruction ip[] = {{0x28, 0, 0, 12}, {0x15, 0, 1, 0x800}, {6, 0, 0, 262144}, {6, 0, 0, 0}}, no_end[] = {{6, 0, 0, 0}, {5, 0, 0, 0}};
#define IP ip, sizeof ip / sizeof *ip

/* Numbers that are none, bytes that aren't there, and answers that lie in what is read or written. */
static void bad_conversions(void) {
    static uint8_t made[512] = "as it was";
    static char text[4096] = "as it was";
    struct bpf_convert_asked in_no_order = {2, BPF_BLOCKS, 32, BPF_LITTLE}, in_order = {bpf_order_here(), BPF_BLOCKS, 32, BPF_LITTLE};
    struct bpf_converted told = {7, 7, 7};
    struct bpf_refusal why = {7, 7, 7, 7};
#define ROOM made, 512, text, 4096
#define TOLD &told, &why
    WANTS(bpf_convert(NULL, 1, BPF_BLOCKS, 32, BPF_LITTLE, ROOM, TOLD), BPF_BAD_MEMORY);
    WANTS(bpf_convert(ip, HUGE_LEN / 8, BPF_BLOCKS, 32, BPF_LITTLE, ROOM, TOLD), BPF_BAD_MEMORY);
    WANTS(bpf_convert(ip, SIZE_MAX, BPF_BLOCKS, 32, BPF_LITTLE, ROOM, TOLD), BPF_BAD_MEMORY);
    WANTS(bpf_convert(ip, SIZE_MAX / 8 + 2, BPF_BLOCKS, 32, BPF_LITTLE, ROOM, TOLD), BPF_BAD_MEMORY);
    WANTS(bpf_convert(IP, BPF_BLOCKS, 32, BPF_LITTLE, NULL, 512, text, 4096, TOLD), BPF_BAD_MEMORY);
    WANTS(bpf_convert(IP, BPF_BLOCKS, 32, BPF_LITTLE, made, 512, NULL, 4096, TOLD), BPF_BAD_MEMORY);
    WANTS(bpf_convert(made, 4, BPF_BLOCKS, 32, BPF_LITTLE, ROOM, TOLD), BPF_BAD_MEMORY);
    WANTS(bpf_convert(text + 4088, 1, BPF_BLOCKS, 32, BPF_LITTLE, ROOM, TOLD), BPF_BAD_MEMORY);
    WANTS(bpf_convert(IP, BPF_BLOCKS, 32, BPF_LITTLE, text + 128, 128, text, 129, TOLD), BPF_BAD_MEMORY);
    WANTS(bpf_convert(IP, BPF_BLOCKS, 32, BPF_LITTLE, ROOM, (void *)(made + 504), &why), BPF_BAD_MEMORY);
    WANTS(bpf_convert(IP, BPF_BLOCKS, 32, BPF_LITTLE, ROOM, (void *)text, &why), BPF_BAD_MEMORY);
    WANTS(bpf_convert(IP, BPF_BLOCKS, 32, BPF_LITTLE, ROOM, &told, (void *)made), BPF_BAD_MEMORY);
    WANTS(bpf_convert(IP, BPF_BLOCKS, 32, BPF_LITTLE, ROOM, &told, (void *)(text + 4088)), BPF_BAD_MEMORY);
    WANTS(bpf_convert(IP, BPF_BLOCKS, 32, 2, ROOM, TOLD), BPF_BAD_CALL);
    WANTS(bpf_convert(IP, 4, 96, BPF_LITTLE, ROOM, TOLD), BPF_BAD_CALL);
    WANTS(bpf_convert(IP, UINT32_MAX, 64, BPF_LITTLE, ROOM, TOLD), BPF_BAD_CALL);
    WANTS(bpf_convert(IP, BPF_BLOCKS, 7, BPF_LITTLE, ROOM, TOLD), BPF_BAD_CALL);
    WANTS(bpf_convert(IP, BPF_BLOCKS, 4097, BPF_LITTLE, ROOM, TOLD), BPF_BAD_CALL);
    WANTS(bpf_convert(IP, BPF_PLAIN, 4097, BPF_LITTLE, ROOM, TOLD), BPF_BAD_CALL);
    WANTS(bpf_convert(IP, BPF_SECCOMP, 63, BPF_LITTLE, ROOM, TOLD), BPF_BAD_CALL);
    WANTS(bpf_convert(IP, BPF_SECCOMP, 65, BPF_LITTLE, ROOM, TOLD), BPF_BAD_CALL);
    WANTS(bpf_convert(IP, BPF_EXTENDED, 71, BPF_LITTLE, ROOM, TOLD), BPF_BAD_CALL);
    WANTS(bpf_convert(IP, BPF_EXTENDED, 4097, BPF_LITTLE, ROOM, TOLD), BPF_BAD_CALL);
    /* The library's own call, by an order of the instructions that is none, and by bytes that end inside of one. */
    WANTS(bpf_host_convert((const uint8_t *)ip, 32, &in_no_order, made, 512, (uint8_t *)text, 4096, TOLD), BPF_BAD_CALL);
    WANTS(told.bound == 7 && why.kind == 7, 1);
    WANTS(bpf_host_convert((const uint8_t *)ip, 31, &in_order, made, 512, (uint8_t *)text, 4096, TOLD), BPF_NO);
    WANTS(why.kind == BPF_CLASSIC && why.number == 8 && why.place == 3 && !why.condition, 1);
    WANTS(bpf_convert(NULL, 0, BPF_BLOCKS, 32, BPF_LITTLE, ROOM, TOLD), BPF_NO);
    WANTS(why.kind == BPF_CLASSIC && why.number == 1 && why.place == 0, 1);
    WANTS(bpf_convert(no_end, 2, BPF_BLOCKS, 32, BPF_LITTLE, ROOM, &told, NULL), BPF_NO);
    WANTS(bpf_convert(no_end, 2, BPF_BLOCKS, 32, BPF_LITTLE, ROOM, TOLD), BPF_NO);
    WANTS(why.kind == BPF_CLASSIC && why.number == 5 && why.place == 1 && told.bound == 7, 1);
    WANTS(!strcmp((char *)made, "as it was") && !strcmp(text, "as it was"), 1);
}

/* A filter by the library alone: both orders, and its answers to an IP packet, to one of another type, and to one that is too short. */
static void conversions(void) {
    static uint8_t made[512], block[32] = {14};
    static char text[4096];
    struct bpf_converted told = {7, 7, 7};
    uint64_t words[64], value = 7;
    for (uint32_t order = BPF_LITTLE; order <= BPF_BIG; order++) {
        memset(block, 0, sizeof block), block[20] = 8, block[order == BPF_BIG ? 7 : 0] = 14;
        WANTS(bpf_convert(IP, BPF_BLOCKS, 32, order, NULL, 0, NULL, 0, &told, NULL), BPF_TOO_SMALL);
        WANTS(told.image_len > 32 && told.certificate_len > 32 && told.certificate_len <= bpf_convert_size(4) && told.bound == 9, 1);
        WANTS(bpf_convert(IP, BPF_BLOCKS, 32, order, made, 512, text, 4096, NULL, NULL), BPF_YES);
        WANTS(bpf_load(made, told.image_len, order, text, told.certificate_len, told.bound, words, 64, NULL, NULL), BPF_YES);
        WANTS(bpf_run_loaded(words, 64, block, 32, &value) == BPF_YES && value == 262144, 1);
        block[21] = 6;
        WANTS(bpf_run_loaded(words, 64, block, 32, &value) == BPF_YES && value == 0, 1);
        block[21] = 0, block[order == BPF_BIG ? 7 : 0] = 13;
        WANTS(bpf_run_loaded(words, 64, block, 32, &value) == BPF_YES && value == 0, 1);
    }
    WANTS(bpf_convert(IP, BPF_BLOCKS, 8, BPF_LITTLE, ROOM, NULL, NULL), BPF_YES);
    WANTS(bpf_convert(IP, BPF_PLAIN, 0, BPF_LITTLE, ROOM, NULL, NULL), BPF_YES);
    WANTS(bpf_convert(ip + 2, 1, BPF_SECCOMP, 64, BPF_LITTLE, ROOM, &told, NULL), BPF_YES);
    WANTS(told.bound, 2);
}

static void sizes(void) {
    WANTS(bpf_convert_size(0), 1024);
    WANTS(bpf_convert_size(4), 1024 + 4 * 576);
    WANTS(bpf_convert_size(SIZE_MAX), 1024 + 4096 * 576);
    WANTS(bpf_infer_size(0), 64);
    WANTS(bpf_infer_size(16), 64 + 2 * 320 + 2 * 74 * 136);
    WANTS(bpf_infer_size(BPF_IMAGE_MOST), 64 + 65536 * 320 + (1 << 20) * 136);
    WANTS(bpf_infer_size(SIZE_MAX) == bpf_infer_size(BPF_IMAGE_MOST), 1);
    WANTS(bpf_explain_size(0, 0, 0), 100000);
    WANTS(bpf_explain_size(24, 5, 7), 100000 + 3 * 8192 + 4 * 12);
    WANTS(bpf_explain_size(0, SIZE_MAX / 4, 0) == SIZE_MAX, 1);
    WANTS(bpf_explain_size(SIZE_MAX, SIZE_MAX, SIZE_MAX) == SIZE_MAX, 1);
}

static void bad_proposals(void) {
    char text[256] = "as it was";
    size_t wanted = 7;
    struct bpf_refusal why = {7, 7, 7, 7};
    WANTS(bpf_infer(NULL, 16, BPF_LITTLE, 0, 0, 0, text, 256, &wanted, &why), BPF_BAD_MEMORY);
    WANTS(bpf_infer(IMAGE, 2, 0, 0, 0, text, 256, &wanted, &why), BPF_BAD_CALL);
    WANTS(bpf_infer(IMAGE, BPF_LITTLE, 1, 0, 0, text, 256, &wanted, &why), BPF_BAD_CALL);
    WANTS(bpf_infer(IMAGE, BPF_LITTLE, 0, 4097, 0, text, 256, &wanted, &why), BPF_BAD_CALL);
    WANTS(bpf_infer(IMAGE, BPF_LITTLE, 0, 0, 2, text, 256, &wanted, &why), BPF_BAD_CALL);
    WANTS(bpf_infer(IMAGE, BPF_LITTLE, 0, 0, 0, NULL, 256, &wanted, &why), BPF_BAD_MEMORY);
    WANTS(bpf_infer(text, 16, BPF_LITTLE, 0, 0, 0, text, 256, &wanted, &why), BPF_BAD_MEMORY);
    WANTS(wanted == 7 && why.kind == 7 && !strcmp(text, "as it was"), 1);
    WANTS(bpf_infer(IMAGE, BPF_LITTLE, 0, 0, 0, text, 3, &wanted, &why), BPF_TOO_SMALL);
    WANTS(wanted > 7 && wanted < 256 && !strcmp(text, "as it was"), 1);
    WANTS(bpf_infer(IMAGE, BPF_LITTLE, 0, 0, 0, text, 256, NULL, NULL), BPF_YES);
    WANTS(bpf_verify(IMAGE, BPF_LITTLE, text, wanted, NULL, NULL), BPF_YES);
}

/* Answers that lie in what a call reads, or in other memory that it writes; one byte is enough, and nothing is written then. */
static void bad_answers(void) {
    static const char kept[] = "bpfcert 1 0 2\nfn 0 1 *\nat 0 2\nend\n";
    struct bytes all = of_size(512), before = of_size(512);
    uint8_t *own = all.at, *proof = all.at + 64, *room = all.at + 128; /* an image, a certificate, and memory for answers */
    size_t proof_len = sizeof kept - 1, words_len = bpf_loaded_size(16), wanted = 7;
    struct bpf_refusal why;
    memset(own, 7, all.len), memcpy(own, image, 16), memcpy(proof, kept, proof_len), memcpy(before.at, own, all.len);
#define OWN own, 16, BPF_LITTLE
#define PROOF proof, proof_len
    WANTS(bpf_verify(OWN, PROOF, (void *)(own + 12), NULL), BPF_BAD_MEMORY);
    WANTS(bpf_verify(OWN, PROOF, (void *)(proof - 8), NULL), BPF_BAD_MEMORY);
    WANTS(bpf_verify(OWN, PROOF, NULL, (void *)own), BPF_BAD_MEMORY);
    WANTS(bpf_verify(OWN, PROOF, NULL, (void *)(proof + 32)), BPF_BAD_MEMORY);
    WANTS(bpf_load(OWN, PROOF, 9, (void *)room, words_len, (void *)(own + 4), NULL), BPF_BAD_MEMORY);
    WANTS(bpf_load(OWN, PROOF, 9, (void *)room, words_len, NULL, (void *)(proof - 16)), BPF_BAD_MEMORY);
    WANTS(bpf_load(OWN, PROOF, 9, (void *)room, words_len, (void *)(room + 8 * words_len - 4), NULL), BPF_BAD_MEMORY);
    WANTS(bpf_load(OWN, PROOF, 9, (void *)room, words_len, NULL, (void *)(room + 8 * words_len - 8)), BPF_BAD_MEMORY);
    WANTS(bpf_load(OWN, PROOF, 9, (void *)room, 1, NULL, (void *)room), BPF_BAD_MEMORY);
    WANTS(bpf_run(OWN, PROOF, 9, (void *)(own + 8)), BPF_BAD_MEMORY);
    WANTS(bpf_run(OWN, PROOF, 9, (void *)proof), BPF_BAD_MEMORY);
    WANTS(bpf_infer(OWN, 0, 0, 0, (char *)room, 64, (void *)own, NULL), BPF_BAD_MEMORY);
    WANTS(bpf_infer(OWN, 0, 0, 0, (char *)room, 64, (void *)(room + 56), NULL), BPF_BAD_MEMORY);
    WANTS(bpf_infer(OWN, 0, 0, 0, (char *)room, 64, NULL, (void *)(own + 8)), BPF_BAD_MEMORY);
    WANTS(bpf_infer(OWN, 0, 0, 0, (char *)room, 64, NULL, (void *)(room - 16)), BPF_BAD_MEMORY);
    WANTS(bpf_harden(OWN, 0, NULL, room, 16, (void *)own, NULL), BPF_BAD_MEMORY);
    WANTS(bpf_harden(OWN, 0, NULL, room, 16, (void *)(room + 8), NULL), BPF_BAD_MEMORY);
    WANTS(bpf_harden(OWN, 0, NULL, room, 16, NULL, (void *)own), BPF_BAD_MEMORY);
    WANTS(bpf_harden(OWN, 0, NULL, room, 16, NULL, (void *)(room - 16)), BPF_BAD_MEMORY);
    WANTS(bpf_certify(OWN, 0, NULL, room, 16, (char *)proof, 64, (void *)own, NULL), BPF_BAD_MEMORY);
    WANTS(bpf_certify(OWN, 0, NULL, room, 16, (char *)proof, 64, (void *)(room + 8), NULL), BPF_BAD_MEMORY);
    WANTS(bpf_certify(OWN, 0, NULL, room, 16, (char *)proof, 64, (void *)(proof + 56), NULL), BPF_BAD_MEMORY);
    WANTS(bpf_certify(OWN, 0, NULL, room, 16, (char *)proof, 64, NULL, (void *)(own + 8)), BPF_BAD_MEMORY);
    WANTS(bpf_certify(OWN, 0, NULL, room, 16, (char *)proof, 64, NULL, (void *)(room + 8)), BPF_BAD_MEMORY);
    WANTS(bpf_certify(OWN, 0, NULL, room, 16, (char *)proof, 64, NULL, (void *)proof), BPF_BAD_MEMORY);
    WANTS(memcmp(own, before.at, all.len), 0);
    /* Behind all that is written there is room for them. */
    WANTS(bpf_harden(OWN, 0, NULL, room, 16, (void *)(room + 16), NULL), BPF_YES);
    WANTS(*(size_t *)(void *)(room + 16), 16);
    WANTS(bpf_load(OWN, PROOF, 9, (void *)room, 20, (void *)(room + 8 * words_len), &why), BPF_YES);
    WANTS(bpf_infer(OWN, 0, 0, 0, NULL, 0, &wanted, &why), BPF_TOO_SMALL);
    free(all.at), free(before.at);
}

static void bad_texts(void) {
    static const struct { char kind; uint32_t count; } kinds[] = {{'A', 7}, {'B', 10}, {'C', 13}, {'E', 10}, {'F', 9}, {'H', 15}, {'I', 5}, {'K', 5}, {'M', 10}, {'N', 2}, {'P', 5}};
    char text[128] = "as it was";
    for (size_t i = 0; i < sizeof kinds / sizeof *kinds; i++) {
        WANTS(bpf_refusal_text((uint32_t)kinds[i].kind, 0, text, sizeof text), 0);
        for (uint32_t n = 1; n <= kinds[i].count; n++) {
            size_t len = bpf_refusal_text((uint32_t)kinds[i].kind, n, text, sizeof text);
            WANTS(len > 8 && len < sizeof text && strlen(text) == len, 1);
        }
        WANTS(bpf_refusal_text((uint32_t)kinds[i].kind, kinds[i].count + 1, text, sizeof text), 0);
    }
    for (int32_t answer = BPF_BAD_MEMORY; answer <= BPF_NO_MEMORY; answer++) {
        char all[256];
        size_t len = bpf_answer_text(answer, all, sizeof all);
        WANTS(len > 8 && len < sizeof all && strlen(all) == len, 1);
    }
    WANTS(bpf_answer_text(BPF_NO, text, sizeof text), 0);
    WANTS(bpf_answer_text(BPF_YES, text, sizeof text), 0);
    WANTS(bpf_answer_text(BPF_BAD_MEMORY - 1, text, sizeof text), 0);
    WANTS(bpf_answer_text(INT32_MIN, text, sizeof text), 0);
    WANTS(bpf_answer_text(BPF_NO_MEMORY, NULL, 0), 13);
    WANTS(bpf_answer_text(BPF_NO_MEMORY, text, 4), 13);
    WANTS(strcmp(text, "out"), 0);
    WANTS(bpf_refusal_text('D', 1, text, sizeof text), 0);
    WANTS(bpf_refusal_text('K', 4, NULL, 0), 13);
    WANTS(bpf_refusal_text('K', 4, NULL, 5), 0);
    WANTS(bpf_refusal_text('K', 4, text, 4), 13);
    WANTS(strcmp(text, "out"), 0);
}

static int bad(void) {
    bad_checks();
    bad_runs();
    bad_preparing();
    bad_prepared_runs();
    bad_loading();
    other_versions();
    bad_explanations();
    bad_following();
    bad_traps();
    bad_certifying();
    bad_conversions();
    conversions();
    sizes();
    bad_proposals();
    bad_answers();
    bad_texts();
    return wrong != 0;
}

/* ---- want of memory; the linker puts these in place of malloc and realloc */

static long growths = -1; /* how many are granted; all if negative */

static int is_granted(void) {
    if (growths > 0) growths--;
    else if (!growths) return 0;
    return 1;
}

void *__real_malloc(size_t size);
void *__real_realloc(void *at, size_t size);
void *__wrap_malloc(size_t size);
void *__wrap_realloc(void *at, size_t size);

void *__wrap_malloc(size_t size) {
    return is_granted() ? __real_malloc(size) : NULL;
}

void *__wrap_realloc(void *at, size_t size) {
    return is_granted() ? __real_realloc(at, size) : NULL;
}

/* Runs and preparing take no memory. */
static void refuse_runs(const struct bytes *program) {
    static uint64_t words[4096];
    static uint8_t context[16];
    struct bpf_outcome end;
    growths = 0;
    WANTS(bpf_prepare(program->at, program->len, BPF_LITTLE, words, 4096), BPF_YES);
    WANTS(bpf_run_checked(words, 4096, context, 16, NULL), BPF_YES);
    WANTS(bpf_run(program->at, program->len, BPF_LITTLE, context, 16, 1000, &end), BPF_YES);
    WANTS(end.kind, BPF_DONE);
    WANTS(bpf_run_prepared(words, 4096, context, 16, 1000, &end), BPF_YES);
    WANTS(end.kind, BPF_DONE);
    growths = -1;
}

static int memory(char **word) {
    struct bytes program = read_file(word[0]), text = read_file(word[1]);
    static char proposal[65536];
    int32_t answer = BPF_NO_MEMORY;
    long granted;
    refuse_runs(&program);
    for (granted = 0; answer == BPF_NO_MEMORY; granted++) {
        struct bpf_verdict v = {7, 7, 7};
        struct bpf_refusal why = {7, 7, 7, 7};
        growths = granted;
        answer = bpf_verify(program.at, program.len, BPF_LITTLE, text.at, text.len, &v, &why);
        growths = -1;
        WANTS(why.kind == 7 && (answer == BPF_YES) == (v.least == 16), 1);
    }
    WANTS(answer == BPF_YES && granted > 2, 1);
    answer = BPF_NO_MEMORY;
    for (granted = 0; answer == BPF_NO_MEMORY; granted++) {
        size_t wanted = 7;
        growths = granted;
        answer = bpf_infer(program.at, program.len, BPF_LITTLE, 16, 16, 0, proposal, sizeof proposal, &wanted, NULL);
        growths = -1;
        WANTS((answer == BPF_YES) == (wanted != 7) && (answer == BPF_YES) == (proposal[0] != 0), 1);
    }
    WANTS(answer == BPF_YES && granted > 10, 1);
    free(program.at), free(text.at);
    return wrong != 0;
}

/* ---- threads, and many runs */

/* What all threads read: an image and its certificate, its prepared words, its handle, and the words that explain it. */
static struct bytes shared_image, shared_certificate, shared_words;
static struct prepared shared_program;
static uint64_t *shared_handle;
static size_t shared_len;

/* The words of the explanation, in memory of the thread's own. */
static struct bytes explained(void) {
    struct bytes text = {NULL, 0};
    if (bpf_explain(shared_image.at, shared_image.len, 0, shared_certificate.at, shared_certificate.len, NULL, NULL, 0, &text.len, NULL) != BPF_TOO_SMALL) abort();
    text = of_size(text.len);
    if (bpf_explain(shared_image.at, shared_image.len, 0, shared_certificate.at, shared_certificate.len, NULL, (char *)text.at, text.len, &text.len, NULL) != BPF_YES) abort();
    return text;
}

/* Whether the calls that take most answer as they do alone. */
static int searches_and_explains(void) {
    char certificate_made[4096];
    uint8_t hardened[4096];
    struct bytes text = explained();
    size_t wanted = 0;
    int same = text.len == shared_words.len && !memcmp(text.at, shared_words.at, text.len);
    free(text.at);
    return same && bpf_infer(shared_image.at, shared_image.len, 0, 16, 16, 1, certificate_made, sizeof certificate_made, &wanted, NULL) == BPF_YES &&
           bpf_verify(shared_image.at, shared_image.len, 0, certificate_made, wanted, NULL, NULL) == BPF_YES &&
           bpf_harden(shared_image.at, shared_image.len, 0, 16, NULL, hardened, sizeof hardened, &wanted, NULL) == BPF_YES &&
           wanted == shared_image.len && !memcmp(hardened, shared_image.at, wanted);
}

/* The sum of a checksum's context by the library and by hand, in words of the thread's own and in those that all share. */
static void *judge_and_run(void *arg) {
    long *bad_ones = arg;
    for (int k = 0; k < 5000; k++) {
        struct bpf_verdict v;
        uint8_t context[16];
        uint64_t value = 0, shared = 0, loaded = 0, want = 0;
        for (int i = 0; i < 16; i++) want += context[i] = (uint8_t)(k + i);
        if (bpf_verify(shared_image.at, shared_image.len, 0, shared_certificate.at, shared_certificate.len, &v, NULL) != BPF_YES) {
            *bad_ones += 1;
            continue;
        }
        struct prepared p = prepare(&shared_image, 0, v);
        if (bpf_run_checked(p.words, p.len, context, 16, &value) != BPF_YES || value != want) *bad_ones += 1;
        if (bpf_run_checked(shared_program.words, shared_program.len, context, 16, &shared) != BPF_YES || shared != want) *bad_ones += 1;
        if (bpf_run_loaded(shared_handle, shared_len, context, 16, &loaded) != BPF_YES || loaded != want) *bad_ones += 1;
        if (k % 100 == 0 && !searches_and_explains()) *bad_ones += 1;
        free(p.words);
    }
    return NULL;
}

static int threads(char **word) {
    enum { THREADS = 8 };
    pthread_t thread[THREADS];
    long bad_ones[THREADS] = {0}, all = 0;
    struct bpf_verdict v;
    shared_image = read_file(word[0]), shared_certificate = read_file(word[1]), shared_words = explained();
    shared_len = bpf_loaded_size(shared_image.len);
    shared_handle = malloc(8 * shared_len);
    if (bpf_load(shared_image.at, shared_image.len, 0, shared_certificate.at, shared_certificate.len, UINT32_MAX, shared_handle, shared_len, &v, NULL) != BPF_YES) return 1;
    shared_program = prepare(&shared_image, 0, v);
    for (int i = 0; i < THREADS; i++)
        if (pthread_create(&thread[i], NULL, judge_and_run, &bad_ones[i])) abort();
    for (int i = 0; i < THREADS; i++) pthread_join(thread[i], NULL), all += bad_ones[i];
    free(shared_image.at), free(shared_certificate.at), free(shared_words.at), free(shared_handle), free(shared_program.words);
    return all != 0;
}

static int many(char **word) {
    struct bytes program = read_file(word[0]), text = read_file(word[1]);
    struct bpf_verdict v;
    uint64_t value, sum = 0, want = 0;
    if (bpf_verify(program.at, program.len, BPF_LITTLE, text.at, text.len, &v, NULL) != BPF_YES) return 1;
    struct prepared p = prepare(&program, BPF_LITTLE, v);
    for (int k = 0; k < 1000000; k++) {
        uint8_t context[1] = {(uint8_t)k};
        if (bpf_run_checked(p.words, p.len, context, 1, &value) != BPF_YES) return 1;
        sum += value;
        want += context[0];
    }
    free(program.at), free(text.at), free(p.words);
    return sum != want;
}

int main(int argc, char **argv) {
    if (argc == 2 && !strcmp(argv[1], "table")) return table();
    if (argc == 2 && !strcmp(argv[1], "texts")) return texts();
    if (argc == 2 && !strcmp(argv[1], "bad")) return bad();
    if (argc == 4 && !strcmp(argv[1], "memory")) return memory(argv + 2);
    if (argc == 4 && !strcmp(argv[1], "threads")) return threads(argv + 2);
    if (argc == 4 && !strcmp(argv[1], "many")) return many(argv + 2);
    return 2;
}
