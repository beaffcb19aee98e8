// When several people can meet: what each has booked, to the minute, and what suits all.
#include <range_set.hpp>

#include <chrono>
#include <iomanip>
#include <iostream>
#include <map>
#include <string>

using std::chrono::hours, std::chrono::minutes;
using minute = std::chrono::time_point<std::chrono::system_clock, minutes>;
using times = range_sets::range_set<minute>;

constexpr minute monday{hours(24) * 20'003};

// A minute of the day as 9:05.
struct shown {
    minute at;
    friend std::ostream &operator<<(std::ostream &out, shown it)
    {
        const minutes of_day = it.at - monday;
        return out << of_day / hours(1) << ':' << std::setw(2) << std::setfill('0') << (of_day % hours(1)).count();
    }
};

class calendar {
public:
    // Books a time for a person, if it is free.
    bool book(const std::string &person, minute start, minute end)
    {
        times &busy = busy_[person];
        if (busy.intersects_range(start, end)) return false;
        busy.insert(start, end);
        return true;
    }

    // When anyone is busy.
    times busy() const
    {
        times all;
        for (const auto &[person, busy] : busy_) all |= busy;
        return all;
    }

private:
    std::map<std::string, times> busy_;
};

int main()
{
    using namespace std::chrono_literals;
    calendar calendar;
    calendar.book("Ada", monday + 9h, monday + 10h + 30min);
    calendar.book("Grace", monday + 10h, monday + 11h + 15min);
    calendar.book("Grace", monday + 13h, monday + 14h);
    std::cout << (calendar.book("Ada", monday + 10h, monday + 11h) ? "booked" : "Ada is busy") << '\n';

    const times busy = calendar.busy(), free = times{{monday + 9h, monday + 17h}} - busy;
    for (const auto &time : free) std::cout << shown{time.start} << " to " << shown{time.end} << '\n';
    std::cout << free.covered().value_or(0) << " minutes in all\n";
    if (const auto start = busy.first_fit(monday + 9h, monday + 17h, 2h)) std::cout << "two hours from " << shown{*start} << " on\n";
}
