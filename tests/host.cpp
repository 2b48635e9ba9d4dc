// A host in C++: every operation of the header once, on a sheet and a log that it is given; its answers a line each.
#include <cstdio>
#include <fstream>
#include <iterator>
#include <vector>

#include "satskhubo.h"

static std::vector<uint8_t> load(const char *name) {
    std::ifstream file(name, std::ios::binary);
    return std::vector<uint8_t>(std::istreambuf_iterator<char>(file), std::istreambuf_iterator<char>());
}

int main(int argc, char **argv) {
    if (argc != 3)
        return 2;
    const std::vector<uint8_t> sheet = load(argv[1]), log = load(argv[2]);
    uint32_t lines = 0, points = 0, consequents = 0, positions[4] = {}, rows[6] = {}, value = 0;
    uint64_t count = 0, looked = 0, after = 0;
    size_t length = 0, offset = 0;
    bool met = false, found = false, impossible = false, of_log = false;
    uint8_t text[SATSKHUBO_MOST_TEXT];
    satskhubo_placement placement = {};

    std::printf("check %u\n", check(sheet.data(), sheet.size(), log.data(), log.size()));
    uint32_t answer = satskhubo_read_log(log.data(), log.size(), &lines);
    std::printf("read_log %u %u\n", answer, lines);
    answer = satskhubo_read_sheet(sheet.data(), sheet.size(), &count);
    std::printf("read_sheet %u %llu\n", answer, static_cast<unsigned long long>(count));
    answer = satskhubo_check(sheet.data(), sheet.size(), log.data(), log.size(), positions, &points, rows, &consequents);
    std::printf("satskhubo_check %u %u %u %u %u\n", answer, points, positions[0], consequents, rows[0]);
    answer = satskhubo_check_limited(sheet.data(), sheet.size(), log.data(), log.size(), 1, positions, &points, rows, &consequents, &looked, &after);
    std::printf("check_limited %u %llu %llu\n", answer, static_cast<unsigned long long>(looked), static_cast<unsigned long long>(after));
    answer = satskhubo_write(sheet.data(), sheet.size(), 2, text, sizeof text, &length);
    std::printf("write %u %zu\n", answer, length);
    answer = satskhubo_impossible(sheet.data(), sheet.size(), 4, &impossible);
    std::printf("impossible %u %d\n", answer, impossible);
    answer = satskhubo_search(sheet.data(), sheet.size(), log.data(), log.size(), 2, placement.positions, SATSKHUBO_MOST_POINTS, &found);
    std::printf("search %u %d %u %u\n", answer, found, placement.positions[0], placement.positions[1]);
    placement.count = 2;
    answer = satskhubo_judge(sheet.data(), sheet.size(), log.data(), log.size(), 2, placement, &met);
    std::printf("judge %u %d\n", answer, met);
    answer = satskhubo_show(log.data(), log.size(), log.data(), log.size(), &of_log, &offset, &length);
    std::printf("show %u %d %zu %zu\n", answer, of_log, offset, length);
    answer = satskhubo_write_field(text, sizeof text, 0, 11, 4294967295U);
    std::printf("write_field %u\n", answer);
    answer = satskhubo_read_field(text, sizeof text, 11, &value);
    std::printf("read_field %u %u\n", answer, value);
    return 0;
}
