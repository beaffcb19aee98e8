#include "by_hand.hpp"

#include "timing.hpp"

#include <cstdio>
#include <fstream>
#include <stdexcept>

namespace {

// One of the two ways, as a contender that has one task.
class Way final : public Peer {
public:
    explicit Way(Pass it) : once(std::move(it)) {}

    std::string name() const override { return {}; }
    bool can(Task) const override { return true; }
    bool fits(const Case&) const override { return true; }
    void load(const Case&) override {}

    std::size_t pass(Task) override { return once(nullptr); }

    Boundaries result(Task, std::size_t) override {
        Boundaries out;
        once(&out);
        return out;
    }

private:
    Pass once;
};

} // namespace

std::size_t check_by_hand(const std::vector<ByHand>& rows, std::size_t ranges) {
    for (const ByHand& row : rows) {
        auto [call, by_hand] = row.make(ranges);
        if (Way(call).result({}, 0) != Way(by_hand).result({}, 0)) {
            throw std::runtime_error("wrong: " + row.name + ", beside by hand");
        }
    }
    return rows.size();
}

void time_by_hand(const std::vector<ByHand>& rows, std::size_t rounds, const std::string& csv) {
    std::ofstream file(csv);
    if (!file) {
        throw std::runtime_error("cannot write " + csv);
    }
    file << "call,ranges,ns,by_hand_ns\n";
    std::printf("%-40s %8s %12s %12s %6s\n", "call", "ranges", "ns", "by hand", "ratio");
    for (const ByHand& row : rows) {
        for (std::size_t ranges : row.sizes) {
            auto [call, by_hand] = row.make(ranges);
            Way ways[] = {Way(call), Way(by_hand)};
            std::vector<Line> lines = {{&ways[0], {}, 0, 0, {}}, {&ways[1], {}, 0, 0, {}}};
            time_all(lines, row.is_each ? ranges : 1, rounds);
            std::printf("%-40s %8zu %12.4g %12.4g %6.2f\n", row.name.c_str(), ranges, lines[0].least, lines[1].least,
                        lines[0].least / lines[1].least);
            file << '"' << row.name << "\"," << ranges << ',' << lines[0].least << ',' << lines[1].least << '\n';
            std::fflush(stdout);
        }
    }
}
