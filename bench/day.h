// What both programs of this folder use: days, the core's calls on them, and LEMON's solvers on the same days.
#ifndef BENCH_DAY_H
#define BENCH_DAY_H

#include "../include/hold_desk.h"
#include <lemon/network_simplex.h>
#include <lemon/smart_graph.h>
#include <algorithm>
#include <chrono>
#include <cstdio>
#include <cstdlib>
#include <filesystem>
#include <fstream>
#include <iterator>
#include <random>
#include <string>
#include <vector>

using Graph = lemon::SmartDigraph;
using Clock = std::chrono::steady_clock;
using Random = std::mt19937;

// Sizes and columns are the header's.
constexpr size_t FIELDS = HOLD_DESK_FLIGHT_WIDTH;
constexpr size_t MOST_PERIODS = HOLD_DESK_MOST_PERIODS;
constexpr size_t MOST_FLIGHTS = HOLD_DESK_MOST_FLIGHTS;
constexpr size_t FLIGHT_ROW = HOLD_DESK_FLIGHT_ROW;
constexpr size_t MOST_BYTES = HOLD_DESK_MOST_SHEET_BYTES;
constexpr size_t MOST_FORECASTS = HOLD_DESK_MOST_FORECASTS;
constexpr uint32_t MISSING = HOLD_DESK_NO_LIMIT;
constexpr uint32_t NO_CURFEW = HOLD_DESK_NO_CURFEW;

enum Field {
    NUMBER = HOLD_DESK_FLIGHT_NUMBER,
    DUE = HOLD_DESK_DUE,
    RATE = HOLD_DESK_RATE,
    AFTER = HOLD_DESK_AFTER,
    JUMP = HOLD_DESK_JUMP,
    LIMIT = HOLD_DESK_LIMIT,
    LATE = HOLD_DESK_LATE
};

inline double seconds_since(Clock::time_point start) { return std::chrono::duration<double>(Clock::now() - start).count(); }

inline void expect(bool holds, const std::string &what)
{
    if (!holds) {
        std::fprintf(stderr, "bench: %s\n", what.c_str());
        std::exit(1);
    }
}

inline double median(std::vector<double> values)
{
    std::sort(values.begin(), values.end());
    return values[values.size() / 2];
}

// Of 0 to bound - 1. A remainder and not the library's distribution, so that a seed gives the same days everywhere.
inline uint32_t below(Random &random, uint32_t bound) { return uint32_t(random() % bound); }

struct Day {
    std::string name;
    std::vector<uint32_t> capacities, flights, holds, prices;
    uint32_t closing = NO_CURFEW;
    size_t periods() const { return capacities.size(); }
    size_t count() const { return flights.size() / FIELDS; }
    uint32_t field(size_t i, Field j) const { return flights[i * FIELDS + j]; }
    uint32_t &field(size_t i, Field j) { return flights[i * FIELDS + j]; }

    // the last period that a flight may be held to
    size_t last(size_t i) const
    {
        size_t end = periods() + 1;
        return field(i, LIMIT) == MISSING ? end : std::min<size_t>(end, field(i, DUE) + field(i, LIMIT));
    }

    // the same value for every flight
    void set(Field j, uint32_t value)
    {
        for (size_t i = 0; i < count(); i++) field(i, j) = value;
    }

    // one flight more
    void add(uint32_t number, uint32_t due, uint32_t rate, uint32_t after, uint32_t jump, uint32_t limit, uint32_t late)
    {
        static_assert(LATE + 1 == FIELDS, "late is the last column");
        flights.insert(flights.end(), {number, due, rate, after, jump, limit, late});
    }

    // the rows to plan into, after a change of the day's size or its curfew, under which the closing period has a price too
    void fit()
    {
        holds.resize(count());
        prices.resize(closing == NO_CURFEW ? periods() : periods() + 1);
    }

    // how many of the holds land in the closing period
    uint32_t left() const
    {
        uint32_t landings = 0;
        for (size_t i = 0; i < count(); i++) landings += field(i, DUE) + holds[i] > periods();
        return landings;
    }

    hold_desk_answer plan()
    {
        return hold_desk_full_plan(capacities.data(), periods(), flights.data(), flights.size(), closing, holds.data(), holds.size(), prices.data(), prices.size());
    }

    std::string sheet() const
    {
        std::string text(MOST_BYTES, ' ');
        hold_desk_answer a = hold_desk_write_sheet(capacities.data(), periods(), flights.data(), flights.size(), closing, (uint8_t *)text.data(), text.size(), 0);
        expect(a.number == 0, name + " has no sheet");
        return text.substr(0, a.first);
    }
};

// The days of a folder, in order of their names.
inline std::vector<Day> load(const std::filesystem::path &folder)
{
    std::vector<Day> days;
    for (auto &entry : std::filesystem::directory_iterator(folder)) {
        std::ifstream file(entry.path(), std::ios::binary);
        std::string sheet(std::istreambuf_iterator<char>(file), {});
        Day day;
        day.name = entry.path().stem().string();
        day.capacities.resize(MOST_PERIODS);
        day.flights.resize(FLIGHT_ROW);
        hold_desk_reading a = hold_desk_read_sheet((const uint8_t *)sheet.data(), sheet.size(), day.capacities.data(), MOST_PERIODS, day.flights.data(), FLIGHT_ROW);
        expect(a.number == 0, day.name + " is refused");
        day.capacities.resize(a.first);
        day.flights.resize(a.second * FIELDS);
        day.closing = uint32_t(a.closing);
        day.fit();
        days.push_back(day);
    }
    std::sort(days.begin(), days.end(), [](const Day &a, const Day &b) { return a.name < b.name; });
    return days;
}

// What a hold costs the flight at table place i.
struct Plain {
    using Value = int;
    int operator()(const Day &day, size_t i, size_t hold) const
    {
        int jump = int(day.field(i, LATE)) + int(hold) > int(day.field(i, AFTER)) ? int(day.field(i, JUMP)) : 0;
        return int(day.field(i, RATE)) * int(hold) + jump;
    }
};

// The same with a growth, in millionths; there are no jumps.
struct Growing {
    using Value = int64_t;
    uint32_t growth;
    int64_t operator()(const Day &day, size_t i, size_t hold) const
    {
        int64_t cost = 0, next = int64_t(day.field(i, RATE)) * 1000000;
        for (size_t t = 0; t < hold; t++) cost += next, next = next / 10 * (10 + growth);
        return cost;
    }
};

// Flights to periods to a sink; the closing period takes everyone, or under a curfew as many as the closing number.
template <class Cost> struct Network {
    using Value = typename Cost::Value;
    Graph graph;
    Graph::ArcMap<int> capacity{graph};
    Graph::ArcMap<Value> cost{graph};
    Graph::NodeMap<int> supply{graph};

    Network(const Day &day, Cost cost_of)
    {
        size_t periods = day.periods();
        std::vector<Graph::Node> at(periods + 1);
        Graph::Node sink = graph.addNode();
        supply[sink] = -int(day.count());
        for (size_t k = 0; k <= periods; k++) {
            at[k] = graph.addNode();
            supply[at[k]] = 0;
            size_t most = k < periods ? day.capacities[k] : day.closing == NO_CURFEW ? day.count() : day.closing;
            add(at[k], sink, int(most), 0);
        }
        for (size_t i = 0; i < day.count(); i++) {
            Graph::Node flight = graph.addNode();
            supply[flight] = 1;
            size_t due = day.field(i, DUE), last = day.last(i);
            for (size_t k = due; k <= last; k++) add(flight, at[k - 1], 1, cost_of(day, i, k - due));
        }
    }

    void add(Graph::Node a, Graph::Node b, int most, Value each)
    {
        Graph::Arc arc = graph.addArc(a, b);
        capacity[arc] = most;
        cost[arc] = each;
    }
};

struct Solved {
    double solving, building; // seconds; building counts both
};

// One run of a solver on a network of its own. A total other than the core's ends the program, with the sheet.
template <class Solver, class Cost = Plain> Solved solve(const Day &day, uint64_t total, Cost cost_of = {})
{
    Clock::time_point start = Clock::now();
    Network<Cost> network(day, cost_of);
    Solver solver(network.graph);
    solver.upperMap(network.capacity).costMap(network.cost).supplyMap(network.supply);
    Clock::time_point ready = Clock::now();
    bool optimal = solver.run() == Solver::OPTIMAL;
    Solved times{seconds_since(ready), seconds_since(start)};
    if (!optimal || uint64_t(solver.totalCost()) != total)
        expect(false, day.name + ": a solver's total differs from the core's " + std::to_string(total) + " on\n" + day.sheet());
    return times;
}

using Simplex = lemon::NetworkSimplex<Graph>;
using WideSimplex = lemon::NetworkSimplex<Graph, int, int64_t>;

#endif
