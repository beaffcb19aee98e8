// Calls of the plain Rust crate beside what is written by hand in Rust, through the exports of plain_rust/.
#include "peers.hpp"

#include <memory>

extern "C" {
const char* by_hand_name(std::size_t row);
std::size_t by_hand_size(std::size_t row, std::size_t place);
bool by_hand_is_each(std::size_t row);
void* by_hand_new(std::size_t row, std::size_t ranges, bool is_by_hand);
void by_hand_free(void* pass);
void by_hand_run(void* pass);
std::size_t by_hand_answer(void* pass, std::int64_t* out, std::size_t out_len);
}

namespace {

Pass pass_of(std::size_t row, std::size_t ranges, bool is_by_hand) {
    std::shared_ptr<void> pass(by_hand_new(row, ranges, is_by_hand), by_hand_free);
    return [pass](Boundaries* out) -> std::size_t {
        if (out == nullptr) {
            by_hand_run(pass.get());
            return 0;
        }
        std::int64_t nowhere;
        out->resize(by_hand_answer(pass.get(), &nowhere, 0) + 1);
        out->resize(by_hand_answer(pass.get(), out->data(), out->size()));
        return out->size();
    };
}

} // namespace

std::vector<ByHand> by_hand_in_rust() {
    std::vector<ByHand> rows;
    for (std::size_t row = 0; by_hand_name(row) != nullptr; row++) {
        std::vector<std::size_t> sizes;
        while (std::size_t size = by_hand_size(row, sizes.size())) {
            sizes.push_back(size);
        }
        rows.push_back({by_hand_name(row), sizes, by_hand_is_each(row), [row](std::size_t ranges) {
                            return std::pair(pass_of(row, ranges, false), pass_of(row, ranges, true));
                        }});
    }
    return rows;
}
