#include "sets.hpp"

#include <algorithm>

Texts texts_of(const Boundaries& numbers) {
    Texts texts;
    for (std::int64_t each : numbers) {
        std::string digits = std::to_string(each);
        texts.append(text_len - digits.size(), '0');
        texts += digits;
    }
    return texts;
}

std::size_t Case::answers() const {
    std::size_t each = 1;
    if (!values.empty()) {
        each = values.size();
    } else if (!commands.starts.empty()) {
        each = commands.starts.size();
    }
    return each * pairs.size();
}

std::int64_t Case::greatest() const {
    std::int64_t greatest = 0;
    auto see = [&greatest](const Boundaries& list) {
        for (std::int64_t each : list) {
            greatest = std::max(greatest, each);
        }
    };
    for (const Pair& pair : pairs) {
        see(pair.left);
        see(pair.right);
    }
    see(values);
    see(commands.ends);
    return greatest;
}
