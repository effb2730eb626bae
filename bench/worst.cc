// Looks for days on which the core's full plan takes the largest share of NetworkSimplex's solving time, by hill climbing
// from many starts. Every total is compared.
#include "day.h"
#include <array>

constexpr int GLANCE = 1, CARE = 5, LAST = 15; // turns of a measurement
constexpr int PLANS = 4, SOLVES = 3;           // repeats in one turn

constexpr size_t FAR = 16; // so many flights and capacities differ at least between two days that are written

struct Climb {
    Day best, midway;
    double share;
};

struct Found {
    double share;
    Day day;
};

// The core's share, or -1 on a day without a legal plan: the median over the turns of least time over least time. The least
// times of all turns would not do: a busy machine changes its speed between turns, and the two could be of different speeds.
static double share(Day &day, int turns)
{
    std::vector<double> shares;
    for (int t = 0; t < turns; t++) {
        double planning = 1e9, solving = 1e9;
        hold_desk_answer plan{};
        for (int r = 0; r < PLANS; r++) {
            Clock::time_point start = Clock::now();
            plan = day.plan();
            planning = std::min(planning, seconds_since(start));
            if (plan.number == 9) return -1;
            expect(plan.number == 0, day.name + " is refused");
        }
        for (int r = 0; r < SOLVES; r++) solving = std::min(solving, solve<Simplex>(day, plan.first).solving);
        shares.push_back(planning / solving);
    }
    return median(shares);
}

static uint32_t some_capacity(Random &random) { return below(random, 8) == 0 ? below(random, 25) : below(random, 5); }
static uint32_t some_limit(Random &random) { return below(random, 2) == 0 ? MISSING : below(random, 97); }
static uint32_t some_jump(Random &random) { return below(random, 2) == 0 ? 0 : 1 + below(random, 1000000); }

// Every flight due within a few periods of one.
static void due_together(Day &day, Random &random, uint32_t few)
{
    uint32_t first = 1 + below(random, uint32_t(day.periods()) / 4 + 1);
    for (size_t i = 0; i < day.count(); i++) day.field(i, DUE) = std::min(first + below(random, few), uint32_t(day.periods()));
}

// One flight or period more or fewer. Flights are numbered anew, as their numbers must differ.
static void resize(Day &day, Random &random)
{
    auto flight = day.flights.begin() + below(random, uint32_t(day.count())) * FIELDS;
    std::vector<uint32_t> copy(flight, flight + FIELDS);
    switch (below(random, 4)) {
    case 0: if (day.count() > 1) day.flights.erase(flight, flight + FIELDS); break;
    case 1: if (day.count() < MOST_FLIGHTS) day.flights.insert(flight, copy.begin(), copy.end()); break;
    case 2: if (day.periods() > 1) day.capacities.pop_back(); break;
    case 3: if (day.periods() < MOST_PERIODS) day.capacities.push_back(some_capacity(random)); break;
    }
    for (size_t i = 0; i < day.count(); i++) {
        day.field(i, NUMBER) = uint32_t(i + 1);
        day.field(i, DUE) = std::min(day.field(i, DUE), uint32_t(day.periods()));
    }
    day.fit();
}

static void set_run(Day &day, Random &random)
{
    uint32_t capacity = below(random, 2);
    size_t first = below(random, uint32_t(day.periods())), length = 1 + below(random, 16);
    for (size_t k = first; k < std::min(first + length, day.periods()); k++) day.capacities[k] = capacity;
}

static void move(Day &day, Random &random)
{
    uint32_t periods = uint32_t(day.periods());
    size_t i = below(random, uint32_t(day.count())), j = below(random, uint32_t(day.count()));
    auto at = [&](size_t place) { return day.flights.begin() + place * FIELDS; };
    switch (below(random, 20)) {
    case 0: case 1: case 2: case 3: day.capacities[below(random, periods)] = some_capacity(random); break;
    case 4: case 5: day.field(i, RATE) = 1 + below(random, 10000); break;
    case 6: day.field(i, AFTER) = below(random, 97); break;
    case 7: day.field(i, LATE) = below(random, 97); break;
    case 8: case 9: day.field(i, JUMP) = some_jump(random); break;
    case 10: case 11: day.field(i, LIMIT) = some_limit(random); break;
    case 12: case 13: day.field(i, DUE) = 1 + below(random, periods); break;
    case 14: case 15: std::swap_ranges(at(i), at(i) + FIELDS, at(j)); break;
    case 16: std::copy(at(i) + DUE, at(i) + FIELDS, at(j) + DUE); break;
    case 17: set_run(day, random); break;
    case 18: if (below(random, 4) == 0) due_together(day, random, 1 + below(random, 4)); break;
    case 19: resize(day, random); break;
    }
}

// Full-sized days that leave the search much to undo: one landing in each period, or nearly all periods closed.
static Day made_day(Random &random, const std::string &name, bool closed)
{
    Day day;
    day.name = name;
    for (size_t k = 0; k < MOST_PERIODS; k++) day.capacities.push_back(!closed ? 1 : below(random, 8) == 0 ? 1 + below(random, 20) : 0);
    for (uint32_t i = 1; i <= MOST_FLIGHTS; i++) {
        uint32_t rate = 1 + below(random, 10000), after = below(random, 97);
        day.add(i, 1, rate, after, some_jump(random), MISSING, 0);
    }
    for (size_t i = 0; i < MOST_FLIGHTS; i++) day.field(i, DUE) = 1 + below(random, 1u << below(random, 4));
    day.fit();
    return day;
}

static std::vector<Climb> starts(const std::filesystem::path &folder, Random &random)
{
    std::vector<Day> days = load(folder);
    for (int n = 0; n < 6; n++) {
        days.push_back(made_day(random, "single-" + std::to_string(n), false));
        days.push_back(made_day(random, "closed-" + std::to_string(n), true));
    }
    std::vector<Climb> climbs;
    for (Day &day : days)
        if (day.count() > 0) climbs.push_back({day, day, 0});
    return climbs;
}

// Climbs for some seconds. The best is measured again now and then, and a better candidate with care beside it: a share that
// came of a busy moment would end the climb.
static size_t climb_on(Climb &climb, double seconds, Random &random)
{
    size_t tried = 0;
    climb.midway = climb.best;
    for (Clock::time_point start = Clock::now(); seconds_since(start) < seconds; tried++) {
        if (tried % 64 == 0) climb.share = share(climb.best, CARE);
        Day day = climb.best;
        for (uint32_t moves = 1u << below(random, 4); moves > 0; moves--) move(day, random);
        if (share(day, GLANCE) <= climb.share) continue;
        double again = share(day, CARE);
        climb.share = share(climb.best, CARE);
        if (again > climb.share) climb.best = day, climb.share = again;
    }
    return tried;
}

// How many flights and capacities of one day the other has not, wherever they stand in the table.
static size_t distance(const Day &a, const Day &b)
{
    auto flights = [](const Day &day) {
        std::vector<std::array<uint32_t, FIELDS - 1>> all(day.count());
        for (size_t i = 0; i < day.count(); i++) std::copy_n(day.flights.begin() + i * FIELDS + DUE, FIELDS - 1, all[i].begin());
        std::sort(all.begin(), all.end());
        return all;
    };
    auto left = flights(a), right = flights(b), only = left;
    size_t differ = size_t(std::set_difference(left.begin(), left.end(), right.begin(), right.end(), only.begin()) - only.begin());
    for (size_t k = 0; k < a.periods(); k++) differ += k >= b.periods() || a.capacities[k] != b.capacities[k];
    return differ;
}

// The worst days that differ from one another: of a climb its end, and its day from midway where that is another.
static std::vector<Found> distinct(std::vector<Climb> &climbs, size_t most)
{
    std::vector<Found> all, kept;
    for (Climb &climb : climbs) {
        all.push_back({share(climb.best, LAST), climb.best});
        if (distance(climb.best, climb.midway) >= FAR) all.push_back({share(climb.midway, LAST), climb.midway});
    }
    std::sort(all.begin(), all.end(), [](const Found &a, const Found &b) { return a.share > b.share; });
    for (Found &found : all) {
        bool is_new = std::all_of(kept.begin(), kept.end(), [&](const Found &k) { return distance(found.day, k.day) >= FAR; });
        if (is_new && kept.size() < most) kept.push_back(found);
    }
    return kept;
}

static void write(const std::filesystem::path &folder, const std::vector<Found> &found)
{
    std::filesystem::create_directories(folder);
    std::printf("| day | share | periods | flights | climbed from |\n|---|---|---|---|---|\n");
    for (size_t n = 0; n < found.size(); n++) {
        const Day &day = found[n].day;
        std::string name = std::string("f-found-") + (n < 10 ? "0" : "") + std::to_string(n);
        std::ofstream(folder / (name + ".csv"), std::ios::binary) << day.sheet();
        std::printf("| %s | %.2f | %zu | %zu | %s |\n", name.c_str(), found[n].share, day.periods(), day.count(), day.name.c_str());
    }
}

// Four stretches of equal time: all climbs, then the better half, quarter and eighth of them.
int main(int argc, char **argv)
{
    expect(argc == 6, "usage: worst DAYS SECONDS SEED COUNT FOLDER");
    double seconds = std::atof(argv[2]);
    Random random(uint32_t(std::atoi(argv[3])));
    std::vector<Climb> climbs = starts(argv[1], random);
    for (size_t part = 1; part <= 8; part *= 2) {
        size_t tried = 0, active = (climbs.size() + part - 1) / part;
        for (size_t c = 0; c < active; c++) tried += climb_on(climbs[c], seconds / 4 / double(active), random);
        std::sort(climbs.begin(), climbs.end(), [](const Climb &a, const Climb &b) { return a.share > b.share; });
        std::fprintf(stderr, "%zu climbs, %zu days tried, worst share %.2f\n", active, tried, climbs.front().share);
    }
    write(argv[5], distinct(climbs, size_t(std::atoi(argv[4]))));
}
