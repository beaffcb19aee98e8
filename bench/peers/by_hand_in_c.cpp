// Calls of range_set.h, over dist/, beside loops over a vector of ranges and std's tree.
#include "peers.hpp"
#include "range_set.h"

#include <algorithm>
#include <cstdlib>
#include <map>
#include <memory>
#include <random>
#include <stdexcept>

namespace {

// Starts and ends.
using Pairs = std::vector<std::pair<std::int64_t, std::int64_t>>;

void expect(range_set_status status) {
    if (status != RANGE_SET_DONE) {
        throw std::runtime_error(range_set_status_text(status));
    }
}

Pairs ranges_at(std::int64_t from, std::int64_t len, std::int64_t distance, std::size_t ranges) {
    Pairs all;
    for (std::size_t i = 0; i < ranges; i++) {
        std::int64_t start = from + static_cast<std::int64_t>(i) * distance;
        all.emplace_back(start, start + len);
    }
    return all;
}

Pairs in_order(std::size_t ranges) {
    return ranges_at(10, 6, 10, ranges);
}

Pairs shuffled(Pairs all) {
    std::shuffle(all.begin(), all.end(), std::mt19937_64(all.size()));
    return all;
}

// Gaps of 8, in which no multiple of 16 or 64 lies. After the last range the next one is one of both.
Pairs without_multiples(std::size_t ranges) {
    Pairs all = ranges_at(9, 56, 64, ranges);
    all.front().first = 0;
    all.back().second += 48;
    return all;
}

Boundaries list_of(const Pairs& set) {
    Boundaries list;
    for (const auto& [start, end] : set) {
        list.push_back(start);
        list.push_back(end);
    }
    return list;
}

std::string text_of(const Pairs& set) {
    std::string text;
    for (const auto& [start, end] : set) {
        text += (text.empty() ? "" : ", ") + std::to_string(start) + ".." + std::to_string(end);
    }
    return text;
}

// A set in chunks.
struct Chunks {
    explicit Chunks(const Pairs& of) : thousand(of[of.size() / 2 - 1000].first) {
        Boundaries list = list_of(of);
        range_set_i64 all;
        expect(range_set_i64_view(list.data(), list.size(), &all));
        expect(range_set_i64_chunked_of(all, &set));
    }
    Chunks(const Chunks&) = delete;
    Chunks& operator=(const Chunks&) = delete;
    ~Chunks() { range_set_i64_chunked_free(&set); }

    std::int64_t fit(std::uint64_t align) {
        std::int64_t first = -1;
        range_set_i64_chunked_first_fit_aligned(&set, 0, INT64_MAX, 4, align, &first);
        return first;
    }

    range_set_i64_chunked set;
    // Where the thousand ranges before the middle begin.
    std::int64_t thousand;
};

// A pass over what lies ready: `run` answers numbers.
template <class Data, class Run> Pass over(std::shared_ptr<Data> data, Run run) {
    return [data, run](Boundaries* out) {
        Boundaries answer = run(*data);
        auto last = static_cast<std::size_t>(answer.back());
        if (out != nullptr) {
            *out = std::move(answer);
        }
        return last;
    };
}

template <class Call, class Hand> ByHand of_chunks(const char* name, Pairs of(std::size_t), Call call, Hand by_hand) {
    return {name, {1000000}, false, [of, call, by_hand](std::size_t ranges) {
                return std::pair(over(std::make_shared<Chunks>(of(ranges)), call),
                                 over(std::make_shared<Pairs>(of(ranges)), by_hand));
            }};
}

std::int64_t below(const Pairs& set, std::int64_t at) {
    std::int64_t sum = 0;
    for (const auto& [start, end] : set) {
        sum += std::max(std::min(end, at) - start, std::int64_t{0});
    }
    return sum;
}

Boundaries parsed(const std::string& text) {
    // Two numbers for each part between commas.
    Boundaries room(2 * (1 + std::count(text.begin(), text.end(), ',')));
    range_set_i64 set;
    expect(range_set_i64_parse(text.data(), text.size(), room.data(), room.size(), &set, nullptr));
    room.resize(set.len);
    return room;
}

Boundaries read(const std::string& text) {
    Boundaries list;
    for (const char* at = text.c_str(); *at != '\0'; at += *at == ',' ? 2 : 0) {
        char* dots;
        char* end;
        std::int64_t first = std::strtoll(at, &dots, 10), last = std::strtoll(dots + 2, &end, 10);
        if (!list.empty() && first <= list.back()) {
            list.back() = std::max(list.back(), last);
        } else {
            list.insert(list.end(), {first, last});
        }
        at = end;
    }
    return list;
}

Boundaries mapped(const Pairs& ranges) {
    range_map_i64 map;
    expect(range_map_i64_new(&map));
    for (const auto& [start, end] : ranges) {
        expect(range_map_i64_insert(&map, start, end, static_cast<std::uint64_t>(start)));
    }
    Boundaries answer{static_cast<std::int64_t>(range_map_i64_len(map))};
    range_map_i64_free(&map);
    return answer;
}

// As if no two ranges could overlap or touch.
Boundaries in_a_tree(const Pairs& ranges) {
    std::map<std::int64_t, std::pair<std::int64_t, std::uint64_t>> map;
    for (const auto& [start, end] : ranges) {
        map[start] = {end, start};
    }
    return {static_cast<std::int64_t>(map.size())};
}

} // namespace

std::vector<ByHand> by_hand_in_c() {
    return {
        of_chunks(
            "C: chunked_covered", in_order,
            [](const Chunks& it) {
                std::uint64_t count = 0;
                range_set_i64_chunked_covered(it.set, &count);
                return Boundaries{static_cast<std::int64_t>(count)};
            },
            [](const Pairs& it) { return Boundaries{below(it, INT64_MAX)}; }),
        of_chunks(
            "C: chunked_rank of the end", in_order,
            [](const Chunks& it) {
                return Boundaries{static_cast<std::int64_t>(range_set_i64_chunked_rank(it.set, INT64_MAX))};
            },
            [](const Pairs& it) { return Boundaries{below(it, INT64_MAX)}; }),
        of_chunks(
            "C: chunked_first_run, of none", in_order,
            [](const Chunks& it) {
                std::int64_t first = -1;
                range_set_i64_chunked_first_run(it.set, 0, INT64_MAX, 7, &first);
                return Boundaries{first};
            },
            [](const Pairs& it) {
                auto is_long = [](const auto& range) { return range.second - range.first >= 7; };
                auto found = std::find_if(it.begin(), it.end(), is_long);
                return Boundaries{found == it.end() ? -1 : found->first};
            }),
        of_chunks(
            "C: chunked_gaps, 1,000 of them", in_order,
            [](const Chunks& it) {
                Boundaries out(2000);
                range_set_i64 gaps;
                std::int64_t from = it.thousand;
                expect(range_set_i64_chunked_gaps(it.set, from, from + 10000, out.data(), out.size(), &gaps));
                out.resize(gaps.len);
                return out;
            },
            [](const Pairs& it) {
                Boundaries out;
                for (std::size_t i = it.size() / 2 - 1000; i < it.size() / 2; i++) {
                    out.insert(out.end(), {it[i].second, it[i + 1].first});
                }
                return out;
            }),
        {"C: first_fit_aligned, by 16 and 64 in turn; 16 alone",
         {1000000},
         false,
         [](std::size_t ranges) {
             auto set = std::make_shared<Chunks>(without_multiples(ranges));
             auto other = std::make_shared<Chunks>(without_multiples(ranges));
             return std::pair(over(set,
                                   [](Chunks& it) {
                                       return Boundaries{it.fit(16), it.fit(64)};
                                   }),
                              over(other, [](Chunks& it) {
                                  return Boundaries{it.fit(16), it.fit(16)};
                              }));
         }},
        {"C: parse; strtoll",
         {1000000},
         true,
         [](std::size_t ranges) {
             auto text = std::make_shared<std::string>(text_of(in_order(ranges)));
             return std::pair(over(text, parsed), over(text, read));
         }},
        {"C: range_map_i64_insert, shuffled; std::map",
         {100000},
         true,
         [](std::size_t ranges) {
             auto all = std::make_shared<Pairs>(shuffled(in_order(ranges)));
             return std::pair(over(all, mapped), over(all, in_a_tree));
         }},
    };
}
