/* bpf.hpp: bpf.h for C++11 and later. A filter that was judged is a value, and what a call asks of its caller is kept by it. */
#ifndef BPF_HPP
#define BPF_HPP

#include <bpf.h>
#include <algorithm>
#include <cstddef>
#include <cstdint>
#include <memory>
#include <new>
#include <stdexcept>
#include <string>
#include <vector>

namespace bpf {

using Bytes = std::vector<std::uint8_t>;

/* Why nothing is loaded, proposed, hardened, certified or converted: the image or the filter is refused, or a bound is above what the host pays for. */
class Refused : public std::runtime_error {
public:
    explicit Refused(const std::string &words, const bpf_refusal &refusal = bpf_refusal()) : std::runtime_error(words), refusal_(refusal) {}

    /* What the call told; all 0 where `bpf_load` found the bound too great. */
    const bpf_refusal &refusal() const noexcept { return refusal_; }

private:
    bpf_refusal refusal_;
};

/* What an answer below 0 says. */
inline std::string answer_text(std::int32_t answer) {
    char text[256];
    return std::string(text, std::min(bpf_answer_text(answer, text, sizeof text), sizeof text - 1));
}

/* The sentence of a refusal by its letter and number; none of a pair that there isn't. */
inline std::string sentence(std::uint32_t kind, std::uint32_t number) {
    char text[256];
    return std::string(text, std::min(bpf_refusal_text(kind, number, text, sizeof text), sizeof text - 1));
}

/* Of a refusal that names a condition of another letter: its letter, number and sentence; of H14 the bound. */
inline std::string condition_text(const bpf_refusal &why) {
    const bool is_hardening = why.kind == BPF_HARDENING;
    if (is_hardening && why.number == 14) return ": " + std::to_string(why.condition) + " instructions";
    const bool is_check = is_hardening ? why.number == 7 || why.number == 15 : why.kind == BPF_INFERENCE && why.number == 4;
    const bool is_mismatch = is_hardening && why.number == 13;
    if (why.condition == 0 || (!is_check && !is_mismatch)) return std::string();
    const bpf_kind kind = is_check ? BPF_CHECK : BPF_MISMATCH;
    return std::string(": ") + static_cast<char>(kind) + std::to_string(why.condition) + ": " +
           sentence(kind, static_cast<std::uint32_t>(why.condition));
}

/* Why something is refused: by what, where, and in words. */
inline std::string refusal_text(const bpf_refusal &why) {
    return std::string("refused by ") + static_cast<char>(why.kind) + std::to_string(why.number) +
           (why.kind == BPF_CERTIFICATE ? " at line " : why.kind == BPF_CLASSIC ? " at instruction " : " at slot ") + std::to_string(why.place) +
           ": " + sentence(why.kind, why.number) + condition_text(why);
}

/* Throws what an answer other than BPF_YES says: Refused, std::bad_alloc, or std::invalid_argument. */
inline void expect_yes(std::int32_t answer, const bpf_refusal &why) {
    if (answer == BPF_YES) return;
    if (answer == BPF_NO) throw Refused(refusal_text(why), why);
    if (answer == BPF_NO_MEMORY) throw std::bad_alloc();
    throw std::invalid_argument(answer_text(answer));
}

/* A filter that was judged: what is promised of it, and its program, ready to run. Nothing changes its words, so threads may share it. */
class Filter {
public:
    /* Judges an image by a certificate, and prepares its program. Throws Refused, also where a run may take more than `greatest` instructions,
     * std::invalid_argument for an order that is none, std::logic_error where the library is of another version than its header, and
     * std::bad_alloc.
     */
    Filter(const Bytes &image, const Bytes &certificate, bpf_order order, std::uint32_t greatest) {
        bpf_refusal why{};
        std::int32_t answer;
        if (bpf_version() != BPF_HOST_VERSION) throw std::logic_error("libbpf_host.a is of another version than bpf.h");
        size_ = bpf_loaded_size(image.size());
        words_.resize(size_ + 1); /* some, also where no image has that length */
        answer = bpf_load(image.data(), image.size(), order, certificate.data(), certificate.size(), greatest, words_.data(), size_, &verdict_, &why);
        if (answer == BPF_TOO_LONG)
            throw Refused("a run may take " + std::to_string(verdict_.bound) + " instructions, and this host pays for " +
                          std::to_string(greatest) + " at most");
        expect_yes(answer, why);
    }

    /* What is promised of the filter. */
    const bpf_verdict &verdict() const { return verdict_; }

    /* What the filter says of a context. Throws std::length_error if its length isn't one of the verdict's. */
    std::uint64_t run(const std::uint8_t *context, std::size_t len) const {
        std::uint64_t result = 0;
        std::int32_t answer = bpf_run_loaded(words_.data(), size_, context, len, &result);
        if (answer == BPF_BAD_LENGTH) throw std::length_error("a context of another length than was judged");
        if (answer != BPF_YES) throw std::invalid_argument(answer_text(answer));
        return result;
    }

private:
    bpf_verdict verdict_;
    std::size_t size_;
    std::vector<std::uint64_t> words_;
};

/* What a call writes into room for so many bytes: `call` is given the room and where to tell how many it takes, and answers as the library
 * does. Room that isn't written isn't filled either, so much of it costs little. */
template <class Call> std::string written(std::size_t room, const bpf_refusal &why, Call call) {
    std::unique_ptr<char[]> text(new char[room]);
    std::size_t wanted = 0;
    expect_yes(call(text.get(), room, &wanted), why);
    return std::string(text.get(), wanted);
}

/* A certificate for an image, on contexts of `least` to `most` bytes, by the deep search unless `deep` is false. Throws Refused,
 * std::invalid_argument, and std::bad_alloc. */
inline Bytes infer(const Bytes &image, bpf_order order, std::uint32_t least, std::uint32_t most, bool deep = true) {
    bpf_refusal why{};
    const std::string text = written(bpf_infer_size(image.size()), why, [&](char *at, std::size_t room, std::size_t *wanted) {
        return bpf_infer(image.data(), image.size(), order, least, most, deep, at, room, wanted, &why);
    });
    return Bytes(text.begin(), text.end());
}

/* What an image is hardened to, for contexts of `size` bytes; `asked` as in bpf_harden. Throws Refused, std::invalid_argument, and
 * std::bad_alloc. */
inline Bytes harden(const Bytes &image, bpf_order order, std::uint32_t size, const bpf_hardening *asked = nullptr) {
    bpf_refusal why{};
    const std::string made = written(BPF_IMAGE_MOST, why, [&](char *at, std::size_t room, std::size_t *wanted) {
        return bpf_harden(image.data(), image.size(), order, size, asked, at, room, wanted, &why);
    });
    return Bytes(made.begin(), made.end());
}

/* An image that was certified, its certificate, and what is told of both. */
struct Certified {
    Bytes image, certificate;
    bpf_certified told;
};

/* An image certified for contexts of `size` bytes, hardened where it needs to be; `wish` as in bpf_certify. Throws Refused, also where no run within
 * the bound is to be had, std::invalid_argument, and std::bad_alloc. */
inline Certified certify(const Bytes &image, bpf_order order, std::uint32_t size, const bpf_wish *wish = nullptr) {
    const std::size_t made_room = BPF_IMAGE_MOST, text_room = bpf_infer_size(BPF_IMAGE_MOST);
    const std::unique_ptr<char[]> made(new char[made_room]), text(new char[text_room]);
    bpf_certified told;
    bpf_refusal why{};
    expect_yes(bpf_certify(image.data(), image.size(), order, size, wish, made.get(), made_room, text.get(), text_room, &told, &why), why);
    return {Bytes(made.get(), made.get() + told.image_len), Bytes(text.get(), text.get() + told.certificate_len), told};
}

/* An image that was made of a filter of classic BPF, its certificate, and the greatest number of instructions of a run. */
struct Converted {
    Bytes image, certificate;
    std::uint32_t bound;
};

/* A filter of classic BPF, `count` instructions as pcap_compile makes them, as an image for contexts of `size` bytes; as in bpf_convert. Throws Refused,
 * std::invalid_argument for a size that no context of the form has, and std::bad_alloc. */
inline Converted convert(const void *filter, std::size_t count, bpf_form form, std::uint32_t size, bpf_order order) {
    const std::size_t made_room = BPF_IMAGE_MOST, text_room = bpf_convert_size(count);
    const std::unique_ptr<char[]> made(new char[made_room]), text(new char[text_room]);
    bpf_converted told;
    bpf_refusal why{};
    expect_yes(bpf_convert(filter, count, form, size, order, made.get(), made_room, text.get(), text_room, &told, &why), why);
    return {Bytes(made.get(), made.get() + told.image_len), Bytes(text.get(), text.get() + told.certificate_len), told.bound};
}

/* What is known of an image under a certificate, or why one of the two is refused: the words of `bpf explain`. Throws
 * std::invalid_argument and std::bad_alloc. */
inline std::string explain(const Bytes &image, const Bytes &certificate, bpf_order order) {
    std::size_t room = bpf_explain_size(image.size(), certificate.size(), 0);
    return written(room, bpf_refusal(), [&](char *at, std::size_t len, std::size_t *wanted) {
        std::int32_t answer = bpf_explain(image.data(), image.size(), order, certificate.data(), certificate.size(), nullptr, at, len, wanted, nullptr);
        return answer == BPF_NO ? static_cast<std::int32_t>(BPF_YES) : answer;
    });
}

} // namespace bpf

#endif
