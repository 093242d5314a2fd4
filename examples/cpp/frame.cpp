// A frame protected and opened again, in C++.
#include <macsec.h>

#include <array>
#include <cstdio>
#include <vector>

// A key, which is overwritten when it is no longer used. `volatile`: else the compiler may leave that out.
struct Key : macs_key {
    ~Key() {
        for (volatile uint8_t &octet : octets) octet = 0;
    }
};

int main() {
    const std::array<uint8_t, 16> octets{0x5A};
    const std::vector<uint8_t> plain{2, 0, 0, 0, 0, 2, 2, 0, 0, 0, 0, 1, 0x88, 0xB5, 1, 2, 3, 4};
    const macs_tag tag{{{2, 0, 0, 0, 0, 1, 0, 1}}, 1, 0, MACS_EXPLICIT, 1, 0};
    std::vector<uint8_t> sealed(MACS_MAX_FRAME), out(MACS_MAX_FRAME);
    Key key;
    macs_opened opened;
    std::size_t written;
    uint32_t answer = macs_key_new(octets.data(), octets.size(), &key);
    if (answer == MACS_OK) answer = macs_seal_frame(&key, &tag, plain.data(), plain.size(), sealed.data(), sealed.size(), &written);
    if (answer == MACS_OK) answer = macs_open_frame(&key, &tag.sci, 0, sealed.data(), written, out.data(), out.size(), &opened);
    if (answer != MACS_OK) return std::fprintf(stderr, "frame: %s\n", macs_answer_text(answer)), 1;
    out.resize(opened.octets);
    std::printf("%zu octets, %zu protected, %s\n", plain.size(), written, out == plain ? "the same" : "another frame");
    return out == plain ? 0 : 1;
}
