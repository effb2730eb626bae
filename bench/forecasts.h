// Forecasts for the benchmark's days, and two programs for them, one as the report has it and one as fast as we know. No
// off-the-shelf solver knows the rule, so the core is measured beside these.
#ifndef BENCH_FORECASTS_H
#define BENCH_FORECASTS_H

#include "day.h"
#include <array>

constexpr uint32_t AIR_FACTOR = 2;

// The first forecast has the day's own capacities. In each of the others weather stays for a quarter of the day, starting an
// eighth of the day later each time; it halves the capacities, rounded down, and closes the periods, in turn.
struct Forecasts {
    std::array<uint32_t, MOST_FORECASTS> weights{300, 150, 120, 110, 100, 90, 80, 50};
    std::vector<uint32_t> capacities;

    explicit Forecasts(const Day &day)
    {
        size_t periods = day.periods();
        for (size_t s = 0; s < weights.size(); s++) {
            capacities.insert(capacities.end(), day.capacities.begin(), day.capacities.end());
            if (s == 0) continue;
            uint32_t *weather = &capacities[s * periods + (s - 1) * periods / MOST_FORECASTS];
            for (size_t k = 0; k < periods / 4; k++) weather[k] = s % 2 == 1 ? weather[k] / 2 : 0;
        }
    }
};

// How many of the flights above wait in each period: those held to it, and those whom the period before left over.
inline void count_waiting(const std::vector<uint32_t> &held, const uint32_t *capacities, std::vector<uint32_t> &waiting)
{
    uint32_t left = 0;
    for (size_t k = 0; k < waiting.size(); k++) {
        waiting[k] = held[k] + left;
        left = waiting[k] - std::min(waiting[k], capacities[k]);
    }
}

// Adds what each hold costs a flight under one forecast. It lands in the first period from the one that it is held to in which
// fewer wait than may land, else in the closing period.
inline void add_costs(size_t due, uint64_t weighted_rate, const uint32_t *capacities, const std::vector<uint32_t> &waiting, std::vector<uint64_t> &costs)
{
    for (size_t hold = 0; hold < costs.size(); hold++) {
        size_t held_to = due + hold, lands = held_to;
        while (lands <= waiting.size() && waiting[lands - 1] >= capacities[lands - 1]) lands++;
        costs[hold] += weighted_rate * (hold + AIR_FACTOR * (lands - held_to));
    }
}

// The procedure of the report's section 3.2: fills the holds and gives the total. With C forecasts it takes N * C * (P + 1)^2
// steps: it counts who waits once for each flight and forecast, and walks the periods anew for each hold.
inline uint64_t plain_forecast_plan(const Day &day, const Forecasts &forecasts, std::vector<uint32_t> &holds)
{
    std::vector<uint32_t> held(day.periods() + 1), waiting(day.periods());
    std::vector<uint64_t> costs;
    uint64_t total = 0;
    for (size_t i = 0; i < day.count(); i++) {
        size_t due = day.field(i, DUE);
        costs.assign(day.last(i) - due + 1, 0);
        for (size_t s = 0; s < forecasts.weights.size(); s++) {
            const uint32_t *capacities = &forecasts.capacities[s * day.periods()];
            count_waiting(held, capacities, waiting);
            add_costs(due, uint64_t(forecasts.weights[s]) * day.field(i, RATE), capacities, waiting, costs);
        }
        auto least = std::min_element(costs.begin(), costs.end()); // the first of several
        holds[i] = uint32_t(least - costs.begin());
        held[due - 1 + holds[i]]++;
        total += *least;
    }
    return total;
}

// Adds the weighted periods in the air of a flight held to each period from `due` on, from the back: it lands where a place is
// left, else where one would that is held to the next period.
inline void add_air(size_t due, uint64_t weight, const uint32_t *left, size_t periods, std::vector<uint64_t> &air)
{
    size_t lands = periods + 1;
    for (size_t k = periods; k >= due; k--) {
        if (left[k - 1] > 0) lands = k;
        air[k] += weight * (lands - k);
    }
}

// The same holds without counting who waits: under each forecast every flight takes a place of the first period that has one
// left, so a period has room for the next flight exactly if a place is left. N * C * (P + 1) steps.
inline uint64_t placed_forecast_plan(const Day &day, const Forecasts &forecasts, std::vector<uint32_t> &holds)
{
    size_t periods = day.periods();
    std::vector<uint32_t> left = forecasts.capacities;
    std::vector<uint64_t> air(periods + 2);
    uint64_t total = 0;
    for (size_t i = 0; i < day.count(); i++) {
        size_t due = day.field(i, DUE), best = 0;
        uint64_t rate = day.field(i, RATE);
        std::fill(air.begin() + due, air.end(), 0);
        for (size_t s = 0; s < forecasts.weights.size(); s++) add_air(due, forecasts.weights[s], &left[s * periods], periods, air);
        auto cost = [&](size_t hold) { return rate * (1000 * hold + AIR_FACTOR * air[due + hold]); };
        for (size_t hold = 1; hold <= day.last(i) - due; hold++)
            if (cost(hold) < cost(best)) best = hold;
        for (size_t s = 0; s < forecasts.weights.size(); s++) {
            uint32_t *end = &left[s * periods] + periods, *place = std::find_if(&left[s * periods] + due - 1 + best, end, [](uint32_t places) { return places > 0; });
            if (place != end) --*place;
        }
        holds[i] = uint32_t(best);
        total += cost(best);
    }
    return total;
}

#endif
