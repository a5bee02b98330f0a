// ionex.hpp: IONEX 1.0 and 1.1 ionosphere maps in C++17, over ionex.h. Link with the library as a program in C does.
//
//     auto maps = ionex::MapSet::read(text);
//     if (!maps) { std::cerr << maps.refusal().words() << '\n'; return 1; }
//     auto tec = maps->ask({4725, 850}, *ionex::Epoch::parse("2010-12-04T06:30:00"));
//     if (tec) std::cout << tec->text() << '\n';                     // 11.659 TECU
//
// A map set owns its areas, which may be empty. A call that is refused comes back as a Refusal, not as an exception; only
// what has no memory throws. Nothing is shared, so threads may ask one map set at once.
#ifndef IONEX_HPP
#define IONEX_HPP

#include "ionex.h"
#include "ionex_words.h"

#include <algorithm>
#include <array>
#include <cstddef>
#include <cstdint>
#include <cstdio>
#include <cstdlib>
#include <optional>
#include <string>
#include <string_view>
#include <tuple>
#include <utility>
#include <variant>
#include <vector>

namespace ionex {

enum class Kind : std::uint64_t { tec = IONEX_KIND_TEC, rms = IONEX_KIND_RMS, height = IONEX_KIND_HEIGHT };

enum class Method : std::uint64_t {
    nearest = IONEX_NEAREST,
    between = IONEX_BETWEEN,
    sun = IONEX_SUN,
    nearest_sun = IONEX_NEAREST_SUN
};

// The node that has no value, and why: a number of enum ionex_cause. Maps count from 1, the others from 0.
struct Lacking {
    std::uint64_t map, layer, row, column, cause;
};

// Why a call is refused: a number of enum ionex_answer, and what comes with it.
struct Refusal {
    std::uint64_t number = 0;
    // 1 to 10: line and column. 11: area and elements needed. 30: bytes needed.
    std::array<std::uint64_t, 2> place{};
    // 22 of explain: the first node without a value.
    std::optional<Lacking> lacking{};

    const char *meaning() const { return ionex_words(number); }

    // `refused 7: a value outside what is accepted, line 3, column 13`
    std::string words() const
    {
        std::string told = "refused " + std::to_string(number) + ": " + meaning();
        if (number >= IONEX_LONG_LINE && number <= IONEX_CUT_SHORT) {
            told += ", line " + std::to_string(place[0]);
            if (place[1] != 0)
                told += ", column " + std::to_string(place[1]);
        }
        if (number == IONEX_SHORT_AREA)
            told += ", area " + std::to_string(place[0]) + " needs " + std::to_string(place[1]) + " elements";
        return told;
    }
};

// What was asked for, or why it is refused.
template <class T> class [[nodiscard]] Result {
public:
    Result(T value) : held_(std::move(value)) {}
    Result(Refusal refusal) : held_(refusal) {}

    explicit operator bool() const { return std::holds_alternative<T>(held_); }
    // These throw std::bad_variant_access where there is no such thing.
    T &operator*() & { return std::get<T>(held_); }
    const T &operator*() const & { return std::get<T>(held_); }
    T &&operator*() && { return std::get<T>(std::move(held_)); }
    T *operator->() { return &std::get<T>(held_); }
    const T *operator->() const { return &std::get<T>(held_); }
    const Refusal &refusal() const { return std::get<Refusal>(held_); }

private:
    std::variant<T, Refusal> held_;
};

namespace detail {

// The pointer of an area, which is never null: the address of an object where there is nothing.
template <class T> T *front(std::vector<T> &area)
{
    static T nothing{};
    return area.empty() ? &nothing : area.data();
}

template <class T> const T *front(const std::vector<T> &area)
{
    static const T nothing{};
    return area.empty() ? &nothing : area.data();
}

// The number of so many digits in front of a word, which are taken off; nothing where there are fewer.
inline std::optional<std::int64_t> digits(std::string_view &word, std::size_t least, std::size_t most)
{
    std::int64_t number = 0;
    std::size_t count = 0;
    for (; count < most && count < word.size() && word[count] >= '0' && word[count] <= '9'; count++)
        number = 10 * number + (word[count] - '0');
    if (count < least)
        return std::nullopt;
    word.remove_prefix(count);
    return number;
}

inline bool taken(std::string_view &word, char mark)
{
    const bool stands = !word.empty() && word[0] == mark;
    word.remove_prefix(stands ? 1 : 0);
    return stands;
}

// Degrees with at most two decimals, in hundredths. More decimals are left in the word, and nothing is rounded.
inline std::optional<std::int32_t> hundredths(std::string_view &word)
{
    const bool negative = taken(word, '-');
    const auto whole = digits(word, 1, 3);
    std::optional<std::int64_t> tenth = 0, hundredth = 0;
    if (taken(word, '.')) {
        tenth = digits(word, 1, 1);
        const auto more = digits(word, 1, 1);
        hundredth = more ? more : 0;
    }
    if (!whole || !tenth)
        return std::nullopt;
    const auto size = static_cast<std::int32_t>(100 * *whole + 10 * *tenth + *hundredth);
    return negative ? -size : size;
}

// The days of all years before this one, in the Gregorian calendar.
inline std::int64_t days_before(std::int64_t year)
{
    year--;
    return 365 * year + year / 4 - year / 100 + year / 400;
}

} // namespace detail

// A place in hundredths of a degree, north and east.
struct Place {
    std::int32_t lat = 0, lon = 0;

    // `47.25,8.50`; three decimals are no place, and nothing is rounded.
    static std::optional<Place> parse(std::string_view word)
    {
        const auto lat = detail::hundredths(word);
        const bool comma = detail::taken(word, ',');
        const auto lon = detail::hundredths(word);
        if (!lat || !comma || !lon || !word.empty())
            return std::nullopt;
        return Place{*lat, *lon};
    }
};

// A time in seconds from 1900-01-01 00:00:00, in universal time (UT).
struct Epoch {
    std::uint64_t second = 0;

    static Epoch from_unix(std::int64_t seconds) { return {IONEX_UNIX_ZERO + static_cast<std::uint64_t>(seconds)}; }

    // `2010-12-04T06:30:00`, or `2010-12-04` for its first second; of the years 1900 to 2199.
    static std::optional<Epoch> parse(std::string_view word)
    {
        std::array<std::int64_t, 6> part{};
        constexpr std::string_view marks = "--T::";
        for (std::size_t i = 0; i < part.size(); i++) {
            const std::size_t width = i == 0 ? 4 : 2;
            const auto number = detail::digits(word, width, width);
            if (!number)
                return std::nullopt;
            part[i] = *number;
            if (word.empty() && (i == 2 || i == 5))
                break;
            if (i == 5 || !detail::taken(word, marks[i]))
                return std::nullopt;
        }
        return from_date(part);
    }

    // The moved epoch; 7 outside the years 1900 to 2199.
    Result<Epoch> moved(std::int64_t by) const
    {
        Epoch later;
        const auto number = ionex_moved(second, by, &later.second, 1);
        if (number != IONEX_DONE)
            return Refusal{number};
        return later;
    }

private:
    static std::optional<Epoch> from_date(const std::array<std::int64_t, 6> &date)
    {
        const auto [year, month, day, hour, minute, sec] = date;
        std::array<std::int64_t, 12> lengths{31, 28, 31, 30, 31, 30, 31, 31, 30, 31, 30, 31};
        if (year < 1900 || year > 2199 || month < 1 || month > 12 || hour > 23 || minute > 59 || sec > 59)
            return std::nullopt;
        lengths[1] += detail::days_before(year + 1) - detail::days_before(year) - 365;
        if (day < 1 || day > lengths[static_cast<std::size_t>(month) - 1])
            return std::nullopt;
        std::int64_t days = detail::days_before(year) - detail::days_before(1900) + day - 1;
        for (std::size_t past = 0; past + 1 < static_cast<std::size_t>(month); past++)
            days += lengths[past];
        return Epoch{static_cast<std::uint64_t>(((days * 24 + hour) * 60 + minute) * 60 + sec)};
    }
};

// A value in thousandths of its unit: TECU of a TEC or an RMS map, kilometres of a height map.
struct Value {
    std::int32_t thousandths = 0;
    Kind kind = Kind::tec;

    const char *unit() const { return kind == Kind::height ? "km" : "TECU"; }
    double number() const { return thousandths / 1000.0; }

    // `11.659 TECU`
    std::string text() const
    {
        const long size = std::labs(thousandths);
        char words[32];
        std::snprintf(words, sizeof words, "%s%ld.%03ld %s", thousandths < 0 ? "-" : "", size / 1000, size % 1000, unit());
        return words;
    }
};

// A group delay, beside what it is the delay of.
struct Delay {
    double carrier, tecu, metres;
};

// A node that an answer is made of: the map counted from 1, the others from 0.
struct Node {
    std::uint64_t map, layer, row, column;
    Value value;
    std::int64_t weight;
};

// Where an answer came from: the sum of value times weight over the denominator, rounded once.
struct Explanation {
    Value answer;
    std::int64_t denominator = 0;
    std::vector<Node> nodes;
};

struct Question {
    Place place;
    Epoch time;
};

class MapSet {
    // What a call is given of a map set, and what it is lent for one.
    auto given() const
    {
        using detail::front;
        return std::make_tuple(header_.data(), header_.size(), texts_.data(), texts_.size(), front(tec_), tec_.size(),
                               front(rms_), rms_.size(), front(height_), height_.size(), front(exponents_),
                               exponents_.size(), front(epochs_), epochs_.size(), front(marks_), marks_.size());
    }

    auto lent(std::array<std::uint64_t, 2> &place)
    {
        using detail::front;
        return std::make_tuple(front(tec_), tec_.size(), front(rms_), rms_.size(), front(height_), height_.size(),
                               front(exponents_), exponents_.size(), front(epochs_), epochs_.size(), front(marks_),
                               marks_.size(), header_.data(), header_.size(), texts_.data(), texts_.size(), place.data(),
                               place.size());
    }

    template <class Function, class... More> std::uint64_t call(Function function, More... more) const
    {
        return std::apply(function, std::tuple_cat(given(), std::make_tuple(more...)));
    }

public:
    // Reads an IONEX text; refusals 1 to 10 where it is none.
    static Result<MapSet> read(std::string_view text)
    {
        const std::uint8_t nothing = 0;
        const auto *bytes = text.empty() ? &nothing : reinterpret_cast<const std::uint8_t *>(text.data());
        std::array<std::uint64_t, IONEX_NEEDS> needs{};
        std::array<std::uint64_t, 2> place{};
        auto number = ionex_needs(bytes, text.size(), needs.data(), needs.size(), place.data(), place.size());
        if (number != IONEX_DONE)
            return Refusal{number, place};
        MapSet maps(needs);
        number = std::apply(ionex_read, std::tuple_cat(std::make_tuple(bytes, text.size()), maps.lent(place)));
        if (number != IONEX_DONE)
            return Refusal{number, place};
        return maps;
    }

    // The canonical text.
    Result<std::string> write() const
    {
        std::string out(1, ' ');
        for (;;) {
            std::array<std::uint64_t, 2> count{};
            auto *bytes = reinterpret_cast<std::uint8_t *>(out.data());
            const auto number = call(ionex_write, bytes, out.size(), count.data(), count.size());
            if (number == IONEX_DONE) {
                out.resize(count[0]);
                return out;
            }
            if (number != IONEX_SHORT_OUTPUT || count[0] <= out.size())
                return Refusal{number, count};
            out.resize(count[0]);
        }
    }

    // The value at a place and time; refusals 20 to 24.
    Result<Value> ask(Place place, Epoch time, Kind kind = Kind::tec, Method method = Method::between,
                      std::uint64_t layer = 0) const
    {
        Value value{0, kind};
        const auto number = call(ionex_ask, static_cast<std::uint64_t>(kind), static_cast<std::uint64_t>(method), layer,
                                 place.lat, place.lon, time.second, &value.thousandths, std::size_t{1});
        if (number != IONEX_DONE)
            return Refusal{number};
        return value;
    }

    // The answer to each of many questions, in their order, in one call; refused as a whole with 23, 24 and 31.
    Result<std::vector<Result<Value>>> ask_all(const std::vector<Question> &questions, Kind kind = Kind::tec,
                                               Method method = Method::between, std::uint64_t layer = 0) const
    {
        std::vector<std::int32_t> lats, lons, values(questions.size());
        std::vector<std::uint64_t> seconds;
        std::vector<std::uint8_t> answers(questions.size());
        for (const auto &question : questions) {
            lats.push_back(question.place.lat);
            lons.push_back(question.place.lon);
            seconds.push_back(question.time.second);
        }
        const auto number = call(ionex_ask_all, static_cast<std::uint64_t>(kind), static_cast<std::uint64_t>(method), layer,
                                 detail::front(std::as_const(lats)), lats.size(), detail::front(std::as_const(lons)),
                                 lons.size(), detail::front(std::as_const(seconds)), seconds.size(), detail::front(answers),
                                 answers.size(), detail::front(values), values.size());
        if (number != IONEX_DONE)
            return Refusal{number};
        std::vector<Result<Value>> all;
        for (std::size_t i = 0; i < questions.size(); i++)
            all.push_back(answers[i] == IONEX_DONE ? Result<Value>(Value{values[i], kind}) : Refusal{answers[i]});
        return all;
    }

    // Where the answer of ask came from; a refusal 22 names the first node without a value.
    Result<Explanation> explain(Place place, Epoch time, Kind kind = Kind::tec, Method method = Method::between,
                                std::uint64_t layer = 0) const
    {
        std::array<std::int64_t, IONEX_EXPLAINED> told{};
        std::array<std::uint64_t, IONEX_LACKING> lacking{};
        const auto number = call(ionex_explain, static_cast<std::uint64_t>(kind), static_cast<std::uint64_t>(method), layer,
                                 place.lat, place.lon, time.second, told.data(), told.size(), lacking.data(), lacking.size());
        if (number == IONEX_NO_VALUE)
            return Refusal{number, {}, Lacking{lacking[0], lacking[1], lacking[2], lacking[3], lacking[4]}};
        if (number != IONEX_DONE)
            return Refusal{number};
        Explanation found{Value{static_cast<std::int32_t>(told[IONEX_ANSWER]), kind}, told[IONEX_DENOMINATOR], {}};
        for (std::int64_t j = 0; j < told[IONEX_NODES]; j++) {
            const auto *node = told.data() + IONEX_NODE_AT(j, 0);
            const auto at = [node](int number) { return static_cast<std::uint64_t>(node[number]); };
            found.nodes.push_back({at(IONEX_NODE_MAP), at(IONEX_NODE_LAYER), at(IONEX_NODE_ROW), at(IONEX_NODE_COLUMN),
                                   Value{static_cast<std::int32_t>(node[IONEX_NODE_VALUE]), kind}, node[IONEX_NODE_WEIGHT]});
        }
        return found;
    }

    // The delay of a carrier in hertz, of a TEC or an RMS value; also refused with 25.
    Result<Delay> delay(Place place, Epoch time, double carrier, Kind kind = Kind::tec, Method method = Method::between,
                        std::uint64_t layer = 0) const
    {
        std::array<double, IONEX_RECORD> record{};
        const auto number = call(ionex_delay, static_cast<std::uint64_t>(kind), static_cast<std::uint64_t>(method), layer,
                                 place.lat, place.lon, time.second, carrier, record.data(), record.size());
        if (number != IONEX_DONE)
            return Refusal{number};
        return Delay{record[IONEX_CARRIER], record[IONEX_TECU], record[IONEX_METRES]};
    }

    // This set and a later one, which begins where this one ends; refusals 31, 40, 41 and 42.
    Result<MapSet> join(const MapSet &later) const
    {
        MapSet joined(room_with(later));
        std::array<std::uint64_t, 2> place{};
        const auto number = std::apply(ionex_join, std::tuple_cat(given(), later.given(), joined.lent(place)));
        if (number != IONEX_DONE)
            return Refusal{number, place};
        joined.fit();
        return joined;
    }

    std::size_t maps() const { return static_cast<std::size_t>(header_[IONEX_MAPS]); }
    std::size_t layers() const { return nodes(IONEX_HGT1); }
    std::size_t rows() const { return nodes(IONEX_LAT1); }
    std::size_t columns() const { return nodes(IONEX_LON1); }

    // The header's numbers, by enum ionex_header; its texts, by enum ionex_texts; and the six areas.
    const std::array<std::int64_t, IONEX_HEADER> &header() const { return header_; }
    const std::array<std::uint8_t, IONEX_TEXTS> &texts() const { return texts_; }
    const std::vector<std::uint64_t> &epochs() const { return epochs_; }
    const std::vector<std::uint8_t> &marks() const { return marks_; }
    const std::vector<std::int32_t> &exponents() const { return exponents_; }
    const std::vector<std::int32_t> &values(Kind kind) const
    {
        return kind == Kind::tec ? tec_ : kind == Kind::rms ? rms_ : height_;
    }

private:
    explicit MapSet(const std::array<std::uint64_t, IONEX_NEEDS> &needs)
        : tec_(needs[IONEX_NEEDS_TEC]), rms_(needs[IONEX_NEEDS_RMS]), height_(needs[IONEX_NEEDS_HEIGHT]),
          exponents_(needs[IONEX_NEEDS_EXPONENTS]), epochs_(needs[IONEX_NEEDS_EPOCHS]), marks_(needs[IONEX_NEEDS_MARKS])
    {
    }

    // How many nodes an axis has, by the place of its first number.
    std::size_t nodes(std::size_t axis) const
    {
        const auto step = header_[axis + 2];
        return step == 0 ? 1 : static_cast<std::size_t>((header_[axis + 1] - header_[axis]) / step + 1);
    }

    // Lengths that are enough for both sets joined, if they can be.
    std::array<std::uint64_t, IONEX_NEEDS> room_with(const MapSet &later) const
    {
        const auto most = [](std::size_t one, std::size_t other, std::uint64_t limit) {
            return std::min<std::uint64_t>(one + other, limit);
        };
        const auto values = most(tec_.size(), later.tec_.size(), 2000000);
        const auto of = [values](const auto &one, const auto &other) {
            return one.empty() && other.empty() ? std::uint64_t{0} : values;
        };
        return {values,
                of(rms_, later.rms_),
                of(height_, later.height_),
                most(exponents_.size(), later.exponents_.size(), 6000000),
                most(epochs_.size(), later.epochs_.size(), 300),
                most(marks_.size(), later.marks_.size(), 300)};
    }

    // Gives back what an accepted map set does not need.
    void fit()
    {
        const auto blocks = maps() * layers() * rows();
        const auto stands = [this](std::uint8_t bit) {
            const auto end = marks_.begin() + static_cast<std::ptrdiff_t>(maps());
            return std::any_of(marks_.begin(), end, [bit](std::uint8_t mark) { return (mark & bit) != 0; });
        };
        tec_.resize(blocks * columns());
        rms_.resize(stands(1) ? blocks * columns() : 0);
        height_.resize(stands(2) ? blocks * columns() : 0);
        exponents_.resize(3 * blocks);
        epochs_.resize(maps());
        marks_.resize(maps());
    }

    std::array<std::int64_t, IONEX_HEADER> header_{};
    std::array<std::uint8_t, IONEX_TEXTS> texts_{};
    std::vector<std::int32_t> tec_, rms_, height_, exponents_;
    std::vector<std::uint64_t> epochs_;
    std::vector<std::uint8_t> marks_;
};

} // namespace ionex

#endif
