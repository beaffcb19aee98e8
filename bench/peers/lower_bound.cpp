// std::lower_bound over a sorted list.
#include "held.hpp"
#include "peers.hpp"

#include <algorithm>
#include <string_view>

namespace {

struct LowerBound {
    static constexpr const char* name = "std::lower_bound";
    static constexpr std::int64_t greatest = INT64_MAX;
    static constexpr unsigned offers = Group::contains | Group::texts;
    using Set = Boundaries;

    static const Set& made(const Boundaries& boundaries) { return boundaries; }

    static std::size_t contains(const Set& set, const Boundaries& values) {
        std::size_t members = 0;
        for (std::int64_t value : values) {
            auto at = std::lower_bound(set.begin(), set.end(), value);
            auto below = static_cast<std::size_t>(at - set.begin());
            members += (below + (at != set.end() && *at == value)) % 2;
        }
        return members;
    }

    static std::vector<std::string_view> views_of(const Texts& texts) {
        std::vector<std::string_view> views;
        views.reserve(texts.size() / text_len);
        for (std::size_t i = 0; i < texts.size(); i += text_len) {
            views.emplace_back(texts.data() + i, text_len);
        }
        return views;
    }

    static std::size_t contains_text(const Texts& texts, const Texts& values) {
        std::vector<std::string_view> set = views_of(texts);
        std::size_t members = 0;
        for (std::size_t i = 0; i < values.size(); i += text_len) {
            std::string_view value(values.data() + i, text_len);
            auto at = std::lower_bound(set.begin(), set.end(), value);
            auto below = static_cast<std::size_t>(at - set.begin());
            members += (below + (at != set.end() && *at == value)) % 2;
        }
        return members;
    }
};

} // namespace

std::unique_ptr<Peer> lower_bound_peer() {
    return std::make_unique<Held<LowerBound>>();
}
