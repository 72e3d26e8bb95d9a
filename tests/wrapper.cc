/* wrapper.cc IMAGE CERTIFICATE: the filter of examples/c/port.c by bpf.hpp, on blocks and in calls that it refuses. */
#include "../examples/hosts/bpf.hpp"
#include <cstdlib>
#include <fstream>
#include <iostream>
#include <iterator>

static std::vector<std::uint8_t> read_file(const char *name) {
    std::ifstream file(name, std::ios::binary);
    return std::vector<std::uint8_t>(std::istreambuf_iterator<char>(file), std::istreambuf_iterator<char>());
}

static void want(bool holds, const char *what) {
    if (holds) return;
    std::cerr << "wrapper: " << what << '\n';
    std::exit(1);
}

/* Whether loading is refused with these words at its front. */
static bool refuses(const std::vector<std::uint8_t> &image, const std::vector<std::uint8_t> &certificate, std::uint32_t greatest, const std::string &words) {
    try {
        bpf::Filter filter(image, certificate, BPF_LITTLE, greatest);
    } catch (const bpf::Refused &why) {
        return std::string(why.what()).compare(0, words.size(), words) == 0;
    }
    return false;
}

int main(int, char **argv) {
    const std::vector<std::uint8_t> image = read_file(argv[1]), certificate = read_file(argv[2]);
    try {
        bpf::Filter filter(image, certificate, static_cast<bpf_order>(2), 1000);
        want(false, "an order that is none is taken");
    } catch (const std::invalid_argument &) {
    }
    const bpf::Filter filter(image, certificate, BPF_LITTLE, 1000);
    std::vector<std::uint8_t> block(128);
    block[0] = 60, block[8 + 12] = 8, block[8 + 14] = 0x45, block[8 + 23] = 6, block[8 + 36] = 1, block[8 + 37] = 187;
    want(filter.verdict().least == 128 && filter.verdict().most == 128, "the lengths");
    want(filter.run(block.data(), block.size()) == 1, "a frame to port 443");
    block[8 + 37] = 188;
    want(filter.run(block.data(), block.size()) == 0, "a frame to port 444");
    bool thrown = false;
    try {
        filter.run(block.data(), 127);
    } catch (const std::length_error &) {
        thrown = true;
    }
    want(thrown, "a context of another length");
    want(refuses(image, certificate, 10, "a run may take "), "a bound above the host's");
    want(refuses(image, {}, 1000, "refused by K1 at line 1: "), "no certificate");
    want(refuses({0, 0, 0, 0, 0, 0, 0, 0}, certificate, 1000, "refused by E2 at slot 0: "), "no image");
    want(bpf::explain(image, {}, BPF_LITTLE).compare(0, 15, "K1 at line 1: t") == 0, "why no certificate is none");
    const bpf::Bytes proposed = bpf::infer(image, BPF_LITTLE, 128, 128), hardened = bpf::harden(image, BPF_LITTLE, 128);
    want(bpf::Filter(image, proposed, BPF_LITTLE, 1000).run(block.data(), block.size()) == 0, "a certificate that is proposed");
    want(hardened == image, "what needs no hardening");
    const bpf::Certified certified = bpf::certify(image, BPF_LITTLE, 128);
    want(certified.image == image && certified.told.is_rewritten == 0 && certified.told.is_shown == 1, "what stands as it is");
    want(bpf::Filter(image, certified.certificate, BPF_LITTLE, certified.told.bound).run(block.data(), block.size()) == 0, "a certificate that is found");
    const bpf_wish one = {1, 0, 0, 0, 0};
    thrown = false;
    try {
        bpf::certify(image, BPF_LITTLE, 128, &one);
    } catch (const bpf::Refused &why) {
        thrown = std::string(why.what()) == "refused by H14 at slot 0: a run of the hardened program may take more instructions than are paid for: 37 instructions" &&
                 why.refusal().condition == 37;
    }
    want(thrown, "a bound of 1");
    /* A pointer that is compared with a number: the meaning isn't shown to be kept. */
    const bpf::Bytes compared = {0xb7, 0, 0, 0, 0, 0, 0, 0, 0x71, 0x13, 0, 0, 0, 0, 0, 0, 0x0f, 0x13, 0, 0, 0, 0, 0, 0,
                                 0x15, 3, 1, 0, 5, 0, 0, 0, 0x71, 0x30, 0, 0, 0, 0, 0, 0, 0x95, 0, 0, 0, 0, 0, 0, 0};
    thrown = false;
    try {
        bpf::harden(compared, BPF_LITTLE, 16);
    } catch (const bpf::Refused &why) {
        thrown = why.refusal().place == 3 && std::string(why.what()).find(": M5: the instruction reads ") != std::string::npos;
    }
    want(thrown, "a pointer that is compared with a number");
    const bpf_hardening two = {0, 2, 0, 0, 0};
    thrown = false;
    try {
        bpf::harden(image, BPF_LITTLE, 128, &two);
    } catch (const std::invalid_argument &why) {
        thrown = std::string(why.what()).find("switch") != std::string::npos;
    }
    want(thrown, "a switch of 2");
    thrown = false;
    try {
        bpf::infer(image, BPF_LITTLE, 0, 0);
    } catch (const bpf::Refused &why) {
        thrown = std::string(why.what()).compare(0, 13, "refused by I4") == 0 && std::string(why.what()).find(": C5: an access ") != std::string::npos;
    }
    want(thrown, "no certificate for no bytes");
    const struct {
        std::uint16_t code;
        std::uint8_t jt, jf;
        std::uint32_t k;
    } ip[] = {{0x28, 0, 0, 12}, {0x15, 0, 1, 0x800}, {6, 0, 0, 262144}, {6, 0, 0, 0}};
    const bpf::Converted converted = bpf::convert(ip, 4, BPF_BLOCKS, 128, BPF_LITTLE);
    want(bpf::Filter(converted.image, converted.certificate, BPF_LITTLE, converted.bound).run(block.data(), block.size()) == 262144, "a filter of IP");
    thrown = false;
    try {
        bpf::convert(ip, 3, BPF_BLOCKS, 128, BPF_LITTLE);
    } catch (const bpf::Refused &why) {
        thrown = std::string(why.what()).compare(0, 34, "refused by B5 at instruction 1: it") == 0;
    }
    want(thrown, "a jump past the last instruction");
    const std::string known = bpf::explain(image, certificate, BPF_LITTLE);
    want(known.find("\naccepted: at most ") != std::string::npos && known.back() == '\n', "what is known");
    return 0;
}
