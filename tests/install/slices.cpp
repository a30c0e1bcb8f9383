// A caller in C++: runs a program in slices, through full outputs, and prints its values.
#include <tak.h>

#include <algorithm>
#include <cstdio>
#include <string>
#include <vector>

namespace {

const std::uint32_t K = 16, N = 4, S = 3, B = 1, T = 16;

// Counts down from the input's number, then dumps the registers and the data cells.
const std::string text = "IN R0\nOUT R0\nDEC R0 1\nJMPGE 1 R0 R1\nDUMP_REG\nDUMP_DATA_MEM\n";
const std::string input = "5";

const std::uint8_t *bytes(const std::string &s) { return reinterpret_cast<const std::uint8_t *>(s.data()); }

} // namespace

int main()
{
    std::vector<std::uint32_t> image(4 * T);
    std::vector<std::int32_t> registers(N), cells(S), output(std::max(N, S)), all;
    std::vector<std::int64_t> record(TAK_RECORD_LENGTH);
    std::uint64_t lines, line, values, spent, cycles = 400;
    std::uint32_t ending, refusal;
    int full = 0;

    refusal = tak_load(K, N, S, B, T, bytes(text), text.size(), image.data(), image.size(), &lines, &line);
    if (refusal == 0)
        refusal = tak_start(K, N, S, B, T, image.data(), image.size(), registers.data(), registers.size(), cells.data(), cells.size(),
                            record.data(), record.size());
    do {
        if (refusal == 0)
            refusal = tak_grant(record.data(), record.size(), cycles, image.data(), image.size(), bytes(input), input.size(),
                                registers.data(), registers.size(), cells.data(), cells.size(), output.data(), output.size(), &ending,
                                &values, &spent);
        if (refusal != 0) {
            std::printf("refused: %u\n", static_cast<unsigned>(refusal));
            return 1;
        }
        all.insert(all.end(), output.begin(), output.begin() + static_cast<std::ptrdiff_t>(values));
        full += ending == TAK_OUTPUT_FULL;
        cycles = ending == TAK_OUTPUT_FULL ? 0 : 400;
    } while (ending == TAK_PAUSED || ending == TAK_OUTPUT_FULL);
    for (std::int32_t value : all)
        std::printf("%d ", static_cast<int>(value));
    std::printf("ending %u, %lld cycles, full outputs: %d, tak %s\n", static_cast<unsigned>(ending),
                static_cast<long long>(record[TAK_SPENT]), full, TAK_VERSION);
    return 0;
}
