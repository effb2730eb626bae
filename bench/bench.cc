// The core's full and growing plans beside LEMON's min-cost-flow solvers, on the same days in one run with equal repeats, and
// its forecast plan beside two programs of ours. Every total is compared. A share is the core's time over the other's (below 1: the core is faster); a
// solver's is of solving only and with its network built each time. A shared machine puts a program aside for moments and is
// slower for whiles. So a time is the least of a few repeats, a share is of two such times close together (a turn), a day's
// figure is the median over the turns, and all is measured in rounds, each over all days.
#include "forecasts.h"
#include <lemon/capacity_scaling.h>
#include <lemon/cost_scaling.h>
#include <map>

constexpr uint32_t GROWTH = 5; // each further period of hold costs half as much again

// A day's periods put together to the most that the growing plan takes.
static Day by_the_hour(Day day)
{
    size_t periods = day.periods(), hours = std::min<size_t>(periods, HOLD_DESK_MOST_GROWTH_PERIODS);
    std::vector<uint32_t> capacities(hours);
    for (size_t k = 0; k < periods; k++) capacities[k * hours / periods] += day.capacities[k];
    for (uint32_t &capacity : capacities) capacity = std::min<uint32_t>(capacity, 255);
    for (size_t i = 0; i < day.count(); i++) day.field(i, DUE) = uint32_t(1 + (day.field(i, DUE) - 1) * hours / periods);
    day.capacities = capacities;
    return day;
}

// A text whose last digit before a place is another one.
static std::string with_another_digit(std::string text, size_t before)
{
    char &digit = text[before - 1];
    digit = digit == '9' ? '8' : char(digit + 1);
    return text;
}

// One day with all rows that the core's calls read and write. The forecast plan gets it without jumps and curfew, the quick plan and
// the card without limits too, and the growing plan so and by the hour; and the full plan also with the curfew that it just keeps.
struct Desk {
    Day day, jumpless, plain, hourly, tight;
    Forecasts forecasts;
    uint64_t total = 0, expected = 0, beside_total = 0, grown = 0;
    std::string sheet, buffer = std::string(MOST_BYTES, ' ');
    std::string right_text, wrong_total, wrong_line;  // the full plan's; with another total; with another cost of the 64th flight, or the last
    size_t text_bytes = 0, total_at = 0, line_at = 0; // of the text; and where the other two are refused
    std::vector<uint32_t> capacities = std::vector<uint32_t>(MOST_PERIODS), flights = std::vector<uint32_t>(FLIGHT_ROW), places, beside_holds, holds_read, untouched;

    explicit Desk(const Day &given) : day(given), jumpless(given), forecasts(given), sheet(given.sheet()), places(given.count()), beside_holds(given.count()), holds_read(given.count()), untouched(given.count(), UINT32_MAX)
    {
        jumpless.set(JUMP, 0);
        jumpless.closing = NO_CURFEW;
        plain = jumpless;
        plain.set(LIMIT, MISSING);
        hourly = by_the_hour(plain);
        expect(full(), day.name + " has no plan");
        write_texts();
        tight = day;
        tight.closing = day.left();
        tight.fit();
    }

    // the text of the full plan, and the two wrong ones
    void write_texts()
    {
        expect(text(), day.name + ": the plan has no text");
        right_text = buffer.substr(0, text_bytes);
        total_at = right_text.find("total\n") + 6;
        for (size_t i = 0; i < std::min<size_t>(64, day.count()); i++) line_at = right_text.find('\n', line_at) + 1;
        wrong_total = with_another_digit(right_text, right_text.size() - 1);
        wrong_line = with_another_digit(right_text, right_text.find('\n', line_at));
    }

    // each call says whether it was accepted, or refused as it must be
    bool read() { return hold_desk_read_sheet((const uint8_t *)sheet.data(), sheet.size(), capacities.data(), MOST_PERIODS, flights.data(), FLIGHT_ROW).number == 0; }
    bool write() { return hold_desk_write_sheet(day.capacities.data(), day.periods(), day.flights.data(), day.flights.size(), day.closing, (uint8_t *)buffer.data(), buffer.size(), 0).number == 0; }
    bool quick() { return hold_desk_quick_plan(plain.capacities.data(), plain.periods(), plain.flights.data(), plain.flights.size(), plain.closing, plain.holds.data(), plain.holds.size()).number == 0; }
    bool hourly_quick() { return hold_desk_quick_plan(hourly.capacities.data(), hourly.periods(), hourly.flights.data(), hourly.flights.size(), hourly.closing, hourly.holds.data(), hourly.holds.size()).number == 0; }
    bool growth()
    {
        hold_desk_answer plan = hold_desk_growth_plan(hourly.capacities.data(), hourly.periods(), hourly.flights.data(), hourly.flights.size(), hourly.closing, GROWTH, hourly.holds.data(), hourly.holds.size());
        grown = plan.first;
        return plan.number == 0;
    }
    // of the last period, since a card plans all periods before its own
    bool card() { return hold_desk_period_card(plain.capacities.data(), plain.periods(), plain.flights.data(), plain.flights.size(), plain.closing, uint32_t(plain.periods())).number == 0; }
    bool full()
    {
        hold_desk_answer plan = day.plan();
        total = plan.first;
        return plan.number == 0;
    }
    // a curfew that leaves a plan leaves the total
    bool tight_full()
    {
        hold_desk_answer plan = tight.plan();
        return plan.number == 0 && plan.first == total;
    }
    bool check() { return hold_desk_price_check(day.capacities.data(), day.periods(), day.flights.data(), day.flights.size(), day.closing, day.holds.data(), day.holds.size(), day.prices.data(), day.prices.size()); }
    bool choice() { return hold_desk_choice(day.capacities.data(), day.periods(), day.flights.data(), day.flights.size(), day.closing, day.holds.data(), day.holds.size(), day.holds.data(), day.holds.size()) == 1; }
    bool board() { return hold_desk_board(day.capacities.data(), day.periods(), day.flights.data(), day.flights.size(), day.closing, day.holds.data(), day.holds.size(), places.data(), places.size()).number == 0; }
    bool text()
    {
        hold_desk_answer written = hold_desk_plan_text(day.capacities.data(), day.periods(), day.flights.data(), day.flights.size(), day.closing, day.holds.data(), day.holds.size(), (uint8_t *)buffer.data(), buffer.size(), 0);
        text_bytes = written.first;
        return written.number == 0;
    }
    bool reads(const std::string &given, hold_desk_answer want)
    {
        holds_read = untouched;
        hold_desk_answer got = hold_desk_read_plan(day.capacities.data(), day.periods(), day.flights.data(), day.flights.size(), day.closing, (const uint8_t *)given.data(), given.size(), holds_read.data(), holds_read.size());
        return got.number == want.number && got.first == want.first && got.second == want.second;
    }
    // the hold row is compared each time, which takes little beside the call
    bool read_back() { return reads(right_text, {HOLD_DESK_ACCEPTED, total, 0}) && holds_read == day.holds; }
    // two that must be refused
    bool refused_total() { return reads(wrong_total, {HOLD_DESK_BAD_PLAN_TEXT, total_at, 0}) && holds_read == untouched; }
    bool refused_line() { return reads(wrong_line, {HOLD_DESK_BAD_PLAN_TEXT, line_at, 0}) && holds_read == untouched; }
    bool forecast()
    {
        hold_desk_answer plan = hold_desk_forecast_plan(jumpless.capacities.data(), jumpless.periods(), jumpless.flights.data(), jumpless.flights.size(), jumpless.closing, uint32_t(forecasts.weights.size()), AIR_FACTOR, forecasts.weights.data(), forecasts.weights.size(), forecasts.capacities.data(), forecasts.capacities.size(), jumpless.holds.data(), jumpless.holds.size());
        expected = plan.first;
        return plan.number == 0;
    }

    // the other programs in that call's place, which refuse nothing
    bool plain_forecast() { return beside_total = plain_forecast_plan(jumpless, forecasts, beside_holds), true; }
    bool placed_forecast() { return beside_total = placed_forecast_plan(jumpless, forecasts, beside_holds), true; }
};

constexpr int TURN = 10; // repeats of one turn

using Call = bool (Desk::*)();
using Figures = std::map<std::string, double>;    // of one day in one round, by column
using Rounds = std::vector<std::vector<Figures>>; // by round, then by day
using Members = std::vector<size_t>;              // the days of a class

constexpr size_t LEADING = 1; // the column of a table that has its spread and its worst day behind it: the first share

// Microseconds of each of the repeats, rising.
static std::vector<double> times_of(Desk &desk, Call call, int repeats)
{
    std::vector<double> times(repeats);
    for (double &time : times) {
        Clock::time_point start = Clock::now();
        bool accepted = (desk.*call)();
        time = seconds_since(start) * 1e6;
        expect(accepted, desk.day.name + ": a call's answer is another");
    }
    std::sort(times.begin(), times.end());
    return times;
}

// A plan of the core, measured before in the column `own`, as a share of a solver's time on the same day and costs.
template <class Solver, class Cost = Plain> static void beside(const Day &day, uint64_t total, int repeats, const std::string &own, const std::string &column, Figures &row, Cost cost_of = {})
{
    Solved least{1e9, 1e9};
    for (int r = 0; r < repeats; r++) {
        Solved one = solve<Solver>(day, total, cost_of);
        least = {std::min(least.solving, one.solving), std::min(least.building, one.building)};
    }
    row[column] = row.at(own) / (least.solving * 1e6);
    row[column + "+build"] = row.at(own) / (least.building * 1e6);
}

static void measure_plan(Desk &desk, int repeats, Figures &row)
{
    row["full us"] = times_of(desk, &Desk::full, repeats).front();
    beside<Simplex>(desk.day, desk.total, repeats, "full us", "simplex", row);
}

static void measure_curfew(Desk &desk, int repeats, Figures &row)
{
    row["full us"] = times_of(desk, &Desk::full, repeats).front();
    row["curfew us"] = times_of(desk, &Desk::tight_full, repeats).front();
    row["curfew/full"] = row["curfew us"] / row["full us"];
    beside<Simplex>(desk.tight, desk.total, repeats, "curfew us", "simplex", row);
}

static void measure_growth(Desk &desk, int repeats, Figures &row)
{
    row["growth us"] = times_of(desk, &Desk::growth, repeats).front();
    beside<WideSimplex>(desk.hourly, desk.grown, repeats, "growth us", "simplex", row, Growing{GROWTH});
    row["growth/quick"] = row["growth us"] / times_of(desk, &Desk::hourly_quick, repeats).front();
}

static void measure_all(Desk &desk, int repeats, Figures &row)
{
    measure_plan(desk, repeats, row);
    beside<lemon::CapacityScaling<Graph>>(desk.day, desk.total, repeats, "full us", "capacity", row);
    beside<lemon::CostScaling<Graph>>(desk.day, desk.total, repeats, "full us", "cost", row);
    row["quick/full"] = times_of(desk, &Desk::quick, repeats).front() / row["full us"];
    row["read/full"] = times_of(desk, &Desk::read, repeats).front() / row["full us"];
    row["write/full"] = times_of(desk, &Desk::write, repeats).front() / row["full us"];
    row["board/full"] = times_of(desk, &Desk::board, repeats).front() / row["full us"];
    row["text/full"] = times_of(desk, &Desk::text, repeats).front() / row["full us"];
    row["readback/full"] = times_of(desk, &Desk::read_back, repeats).front() / row["full us"];
}

static void measure_read_back(Desk &desk, int repeats, Figures &row)
{
    row["full us"] = times_of(desk, &Desk::full, repeats).front();
    row["readback us"] = times_of(desk, &Desk::read_back, repeats).front();
    row["readback/full"] = row["readback us"] / row["full us"];
    row["wrong total/full"] = times_of(desk, &Desk::refused_total, repeats).front() / row["full us"];
    row["wrong line/full"] = times_of(desk, &Desk::refused_line, repeats).front() / row["full us"];
}

// The forecast plan, measured before, as a share of another program's time; both come to the same.
static void beside(Desk &desk, Call other, int repeats, const std::string &column, Figures &row)
{
    row[column] = row.at("forecast us") / times_of(desk, other, repeats).front();
    expect(desk.beside_total == desk.expected && desk.beside_holds == desk.jumpless.holds, desk.day.name + ": the forecast plan of the " + column + " program differs from the core's");
}

static void measure_forecasts(Desk &desk, int repeats, Figures &row)
{
    row["full us"] = times_of(desk, &Desk::full, repeats).front();
    row["forecast us"] = times_of(desk, &Desk::forecast, repeats).front();
    row["forecast/full"] = row["forecast us"] / row["full us"];
    beside(desk, &Desk::plain_forecast, repeats, "plain", row);
    beside(desk, &Desk::placed_forecast, repeats, "placed", row);
}

using Measure = void (*)(Desk &, int, Figures &);

static std::vector<double> values_of(const std::vector<Figures> &rows, const std::string &column)
{
    std::vector<double> values;
    for (auto &row : rows) values.push_back(row.at(column));
    return values;
}

static double median_of(const std::vector<Figures> &rows, const std::string &column) { return median(values_of(rows, column)); }

static Figures in_turns(Desk &desk, int repeats, Measure one)
{
    std::vector<Figures> turns;
    for (int done = 0; done < repeats; done += TURN) one(desk, std::min(TURN, repeats - done), turns.emplace_back());
    Figures row;
    for (auto &[column, figure] : turns.front()) row[column] = median_of(turns, column);
    return row;
}

static Rounds measure(std::vector<Desk> &desks, int repeats, int rounds, Measure one)
{
    Rounds measured(rounds);
    for (auto &round : measured)
        for (Desk &desk : desks) round.push_back(in_turns(desk, repeats, one));
    return measured;
}

static std::vector<Figures> rows_of(const std::vector<Figures> &round, const Members &members)
{
    std::vector<Figures> rows;
    for (size_t i : members) rows.push_back(round[i]);
    return rows;
}

// The class's median in each round, rising.
static std::vector<double> class_medians(const Rounds &rounds, const Members &members, const std::string &column)
{
    std::vector<double> medians;
    for (auto &round : rounds) medians.push_back(median_of(rows_of(round, members), column));
    std::sort(medians.begin(), medians.end());
    return medians;
}

static double day_median(const Rounds &rounds, size_t day, const std::string &column)
{
    std::vector<Figures> rows;
    for (auto &round : rounds) rows.push_back(round[day]);
    return median_of(rows, column);
}

static void print_heads(const std::vector<std::string> &heads)
{
    for (auto &head : heads) std::printf("| %s ", head.c_str());
    std::printf("|\n");
    for (size_t i = 0; i < heads.size(); i++) std::printf("|---");
    std::printf("|\n");
}

// The columns of one class; behind the leading one its smallest and largest round, and the class's worst day.
static void print_class(const std::vector<Desk> &desks, const Rounds &rounds, const Members &members, const std::vector<std::string> &columns)
{
    for (auto &column : columns) {
        std::vector<double> medians = class_medians(rounds, members, column);
        double figure = median(medians);
        std::printf(figure < 0.01 ? " %.3f |" : " %.2f |", figure);
        if (column != columns[LEADING]) continue;
        size_t worst = *std::max_element(members.begin(), members.end(), [&](size_t a, size_t b) { return day_median(rounds, a, column) < day_median(rounds, b, column); });
        std::printf(" %.2f to %.2f | %.2f | %s |", medians.front(), medians.back(), day_median(rounds, worst, column), desks[worst].day.name.c_str());
    }
    std::printf("\n");
}

// The class of a day is its name up to the first hyphen.
static std::map<std::string, Members> classes_of(const std::vector<Desk> &desks)
{
    std::map<std::string, Members> classes;
    for (size_t i = 0; i < desks.size(); i++) classes[desks[i].day.name.substr(0, desks[i].day.name.find('-'))].push_back(i);
    return classes;
}

// A line for each class.
static void print_classes(const std::vector<Desk> &desks, const Rounds &rounds, const std::vector<std::string> &columns)
{
    const std::map<std::string, std::string> titles{{"a", "report's day"}, {"b", "48 x 64"}, {"c", "tight 96 x 128"}, {"d", "typical 96 x 128"}, {"e", "bad days, handed over"}, {"f", "bad days, found"}};
    std::vector<std::string> heads{"class"};
    for (auto &column : columns) {
        heads.push_back(column);
        if (column == columns[LEADING]) heads.insert(heads.end(), {column + " spread", column + " worst", "worst day"});
    }
    print_heads(heads);
    for (auto &[key, members] : classes_of(desks)) {
        std::printf("| %s |", titles.count(key) ? titles.at(key).c_str() : key.c_str());
        print_class(desks, rounds, members, columns);
    }
}

// The bar of the forecast plan is about two different days, so no turn has both: they are compared within a round, and the
// median over the rounds is printed. A folder without tight days or days of full size has no such figure.
static void print_bar(const std::vector<Desk> &desks, const Rounds &rounds)
{
    Members tight = classes_of(desks)["c"], largest;
    for (size_t i = 0; i < desks.size(); i++)
        if (desks[i].day.periods() == MOST_PERIODS && desks[i].day.count() == MOST_FLIGHTS) largest.push_back(i);
    if (tight.empty() || largest.empty()) return;
    std::vector<double> slowest, usual;
    for (auto &round : rounds) {
        double full = median_of(rows_of(round, tight), "full us");
        std::vector<double> times = values_of(rows_of(round, largest), "forecast us");
        slowest.push_back(*std::max_element(times.begin(), times.end()) / full);
        usual.push_back(median(times) / full);
    }
    std::printf("\nFull-size days with %zu forecasts: the slowest of %zu takes %.2f times the median full plan of the tight ones, their median %.2f times.\n", MOST_FORECASTS, largest.size(), median(slowest), median(usual));
}

// Like class c: about as many landings as flights, all due in the first three quarters. What counts periods grows with the
// day, so that a small day is no easier for its size.
static Day tight_day(Random &random, uint32_t periods, uint32_t count)
{
    const uint32_t of_twenty[] = {0, 0, 0, 1, 1, 1, 1, 1, 1, 1, 1, 1, 1, 2, 2, 2, 2, 3, 3, 3};
    Day day;
    for (uint32_t k = 0; k < periods; k++) day.capacities.push_back(of_twenty[below(random, 20)]);
    for (uint32_t i = 1; i <= count; i++) {
        uint32_t due = 1 + below(random, periods * 3 / 4), rate = 1 + below(random, 10000), after = below(random, periods * 5 / 16 + 1);
        uint32_t jump = below(random, 4) == 0 ? 0 : 1 + below(random, 1000000);
        uint32_t limit = below(random, 2) == 0 ? MISSING : periods / 4 + below(random, 97 - periods / 4);
        day.add(i, due, rate, after, jump, limit, 0);
    }
    day.fit();
    return day;
}

static std::vector<Desk> growing_days()
{
    Random random(1);
    std::vector<Desk> desks;
    for (uint32_t periods = 12; periods <= MOST_PERIODS; periods *= 2)
        for (int n = 0; n < 10; n++) {
            uint32_t count = periods * 4 / 3;
            Day day = tight_day(random, periods, count);
            while (day.plan().number == HOLD_DESK_NO_PLAN) day = tight_day(random, periods, count);
            expect(day.plan().number == HOLD_DESK_ACCEPTED, "a made day is refused");
            day.name = std::to_string(periods) + " x " + std::to_string(count) + "-" + std::to_string(n);
            desks.emplace_back(day);
        }
    return desks;
}

// Each call timed alone on every day: the least of a day's times is the call's own, the largest also has what else the
// machine did.
static void print_longest(std::vector<Desk> &desks, int repeats)
{
    const std::pair<const char *, Call> calls[] = {{"read_sheet", &Desk::read}, {"write_sheet", &Desk::write}, {"quick_plan", &Desk::quick}, {"period_card", &Desk::card}, {"full_plan", &Desk::full}, {"full_plan, curfew", &Desk::tight_full}, {"price_check", &Desk::check}, {"choice", &Desk::choice}, {"board", &Desk::board}, {"plan_text", &Desk::text}, {"read_plan", &Desk::read_back}, {"read_plan, another total", &Desk::refused_total}, {"read_plan, another cost", &Desk::refused_line}, {"forecast_plan", &Desk::forecast}, {"growth_plan", &Desk::growth}};
    print_heads({"call", "longest us", "on day", "longest seen us"});
    for (auto &[name, call] : calls) {
        double longest = 0, seen = 0;
        std::string on;
        for (Desk &desk : desks) {
            std::vector<double> times = times_of(desk, call, repeats);
            seen = std::max(seen, times.back());
            if (times.front() > longest) longest = times.front(), on = desk.day.name;
        }
        std::printf("| %s | %.2f | %s | %.2f |\n", name, longest, on.c_str(), seen);
    }
}

int main(int argc, char **argv)
{
    expect(argc == 4 && std::atoi(argv[2]) > 0 && std::atoi(argv[3]) > 0, "usage: bench FOLDER REPEATS ROUNDS");
    int repeats = std::atoi(argv[2]), rounds = std::atoi(argv[3]);
    std::vector<Desk> desks, growing = growing_days();
    for (Day &day : load(argv[1])) desks.emplace_back(day);
    std::printf("The full plan as a share of the solvers' time, %d rounds of %d repeats; each figure is the median over the rounds of the class median:\n\n", rounds, repeats);
    print_classes(desks, measure(desks, repeats, rounds, measure_all), {"full us", "simplex", "simplex+build", "capacity", "capacity+build", "cost", "cost+build", "quick/full", "read/full", "write/full", "board/full", "text/full", "readback/full"});
    std::printf("\nGrowth, ten tight days of each size:\n\n");
    print_classes(growing, measure(growing, repeats, rounds, measure_plan), {"full us", "simplex", "simplex+build"});
    std::printf("\nCurfew: each day with a closing line that its full plan just keeps, beside the same day without one, and beside the solver on the same day:\n\n");
    print_classes(desks, measure(desks, repeats, rounds, measure_curfew), {"curfew us", "curfew/full", "simplex", "simplex+build"});
    std::printf("\nForecasts: each day without jumps and with %zu forecasts, as a share of the day's own full plan and of the times of a plain and of a fast program:\n\n", MOST_FORECASTS);
    Rounds forecasts = measure(desks, repeats, rounds, measure_forecasts);
    print_classes(desks, forecasts, {"forecast us", "forecast/full", "plain", "placed"});
    print_bar(desks, forecasts);
    std::printf("\nGrowing cost: each day without jumps and limits, its periods put together to %d at most, with a growth of %u tenths:\n\n", HOLD_DESK_MOST_GROWTH_PERIODS, GROWTH);
    print_classes(desks, measure(desks, repeats, rounds, measure_growth), {"growth us", "simplex", "simplex+build", "growth/quick"});
    std::printf("\nThe full plan's text read back; and refused, with another total, and with another cost in the line of the 64th flight, or of the last:\n\n");
    print_classes(desks, measure(desks, repeats, rounds, measure_read_back), {"readback us", "readback/full", "wrong total/full", "wrong line/full"});
    std::printf("\nThe longest time of a single call, over all days of the folder:\n\n");
    print_longest(desks, repeats);
}
