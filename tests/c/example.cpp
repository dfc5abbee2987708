// The example of include/g7110.h, as a program in C++ has it. Prints 'ok' if it holds.
#include "g7110.h"

#include <array>
#include <cstddef>
#include <cstdint>
#include <cstdio>
#include <vector>

namespace {

std::vector<std::uint8_t> keep(const std::vector<std::uint8_t> &samples)
{
    std::array<std::uint8_t, G7110_MAX_WRITTEN> kept;
    std::uint64_t wrote[3];
    if (g7110_write(samples.data(), samples.size(), G7110_LAW_MU, G7110_FIELD_TOOLS, kept.data(), kept.size(), wrote) != G7110_OK) return {};
    return std::vector<std::uint8_t>(kept.begin(), kept.begin() + static_cast<std::ptrdiff_t>(wrote[G7110_WRITE_OCTETS]));
}

std::vector<std::uint8_t> get_back(const std::vector<std::uint8_t> &kept)
{
    std::vector<std::uint8_t> sound(G7110_MAX_SAMPLES);
    std::uint64_t got[5];
    if (g7110_read(kept.data(), kept.size(), G7110_LAW_MU, G7110_ALL_TOOLS, sound.data(), sound.size(), got) != G7110_OK) return {};
    sound.resize(static_cast<std::size_t>(got[G7110_READ_SAMPLES]));
    return sound;
}

} // namespace

int main()
{
    static_assert(G7110_LONG == 13 && G7110_HEAD == 14 && G7110_SPENT == 25, "the refusals are numbered as in the manual");
    std::vector<std::uint8_t> samples(160, 0xFF);
    samples[7] = 0x7F;
    const std::vector<std::uint8_t> kept = keep(samples);
    if (kept.empty() || kept.size() > 4 || get_back(kept) != samples) return 1;
    std::uint64_t walked[5];
    if (g7110_walk(nullptr, 0, 0, 0, nullptr, 0, walked) != G7110_OK) return 1;
    const std::array<std::uint16_t, 2> items = {{160, G7110_LOSS + 40}};
    std::vector<std::uint8_t> file(G7110_MAX_FILE), sound(200);
    std::array<std::uint16_t, 2> back;
    std::uint64_t wrote[1], told[6];
    if (g7110_file_write(samples.data(), 160, items.data(), 2, G7110_LAW_MU, G7110_FIELD_TOOLS, file.data(), file.size(), wrote) != G7110_OK) return 1;
    const std::size_t octets = static_cast<std::size_t>(wrote[0]);
    if (g7110_file_read(file.data(), octets, G7110_ALL_TOOLS, sound.data(), sound.size(), back.data(), 2, told) != G7110_OK) return 1;
    if (back != items || told[3] != 160) return 1;
    std::puts("ok");
    return 0;
}
