// Tables of times on standard output, and the same as a CSV.
#pragma once

#include "timing.hpp"

#include <fstream>
#include <string>

class Table {
public:
    // Writes the CSV to that file.
    Table(const Peers& peers, const std::string& csv);

    // The rows of a case: of each task the time of every contender that has a line, and the library's ratios. Where there are
    // rows of copies, those of changes have the time and allocations of such copies in them.
    void add(const Case& that, const std::vector<Task>& tasks, const std::vector<Line>& lines);

private:
    void write_header();
    void write_row(const Case& that, Task task, const std::vector<Line>& lines);
    void write_csv(const Case& that, const Line& line);

    const Peers& peers;
    std::ofstream file;
};
