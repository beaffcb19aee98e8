#include "table.hpp"

#include <cstdio>
#include <stdexcept>

namespace {

const Line* find(const std::vector<Line>& lines, const std::string& peer, Task task) {
    for (const Line& line : lines) {
        if (line.task == task && line.peer->name() == peer) {
            return &line;
        }
    }
    return nullptr;
}

std::string cell(const Line* line) {
    if (line == nullptr) {
        return "-";
    }
    char text[32];
    std::snprintf(text, sizeof text, line->least < 100 ? "%.1f" : "%.0f", line->least);
    return text;
}

std::string ratio(const Line* ours, const Line* theirs) {
    if (ours == nullptr || theirs == nullptr) {
        return "-";
    }
    char text[32];
    std::snprintf(text, sizeof text, "%.2f", ours->least / theirs->least);
    return text;
}

} // namespace

Table::Table(const Peers& all, const std::string& csv) : peers(all), file(csv) {
    if (!file) {
        throw std::runtime_error("cannot write " + csv);
    }
    file << "shape,boundaries,task,contender,least_ns,median_ns,mallocs,reallocs,bytes\n";
    write_header();
}

void Table::write_header() {
    std::printf("%-26s %8s %-28s", "shape", "size", "ns");
    for (const auto& peer : peers) {
        std::printf(" %12.12s", peer->name().c_str());
    }
    std::printf(" %9s %9s %9s %9s  %s\n", "/vector", "/linear C", "/ICU", "/CRoaring",
                "library's mallocs, reallocs, bytes");
}

void Table::add(const Case& that, const std::vector<Task>& tasks, const std::vector<Line>& lines) {
    for (Task task : tasks) {
        write_row(that, task, lines);
    }
    std::fflush(stdout);
    file.flush();
}

void Table::write_row(const Case& that, Task task, const std::vector<Line>& lines) {
    std::printf("%-26s %8zu %-28s", that.shape.c_str(), that.size, name_of(task));
    for (const auto& peer : peers) {
        const Line* line = find(lines, peer->name(), task);
        std::printf(" %12s", cell(line).c_str());
        if (line != nullptr) {
            write_csv(that, *line);
        }
    }
    const Line* ours = find(lines, peers.front()->name(), task);
    for (const char* peer : {"vector", "linear C", "ICU", "CRoaring"}) {
        std::printf(" %9s", ratio(ours, find(lines, peer, task)).c_str());
    }
    if (ours != nullptr) {
        auto answers = static_cast<double>(that.answers());
        std::printf("  %.3g, %.3g, %.3g", static_cast<double>(ours->allocations.mallocs) / answers,
                    static_cast<double>(ours->allocations.reallocs) / answers,
                    static_cast<double>(ours->allocations.bytes) / answers);
    }
    std::printf("\n");
}

void Table::write_csv(const Case& that, const Line& line) {
    auto answers = static_cast<double>(that.answers());
    file << '"' << that.shape << "\"," << that.size << ",\"" << name_of(line.task) << "\"," << line.peer->name() << ','
         << line.least << ',' << line.median << ',' << static_cast<double>(line.allocations.mallocs) / answers << ','
         << static_cast<double>(line.allocations.reallocs) / answers << ','
         << static_cast<double>(line.allocations.bytes) / answers << '\n';
}
