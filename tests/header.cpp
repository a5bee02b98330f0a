// include/ionex.hpp: every call of it, on the texts of tests/examples. Given their folder; says what is wrong, if anything is.
#include "ionex.hpp"
#include <fstream>
#include <iostream>
#include <iterator>

static int wrong = 0;

static void must(bool right, const char *what)
{
    if (!right) {
        std::cout << "wrong: " << what << '\n';
        wrong = 1;
    }
}

static std::string folder;

static std::string load(const char *name)
{
    std::ifstream file(folder + "/" + name, std::ios::binary);
    return {std::istreambuf_iterator<char>(file), {}};
}

static ionex::Epoch at(const char *word)
{
    return *ionex::Epoch::parse(word);
}

static void refusals()
{
    const auto seven = ionex::MapSet::read(load("refused-07.inx"));
    must(!seven && seven.refusal().number == IONEX_OUT_OF_RANGE, "7");
    must(seven.refusal().words() == "refused 7: a value outside what is accepted, line 3, column 13", "7 in words");
    const auto nine = ionex::MapSet::read(load("refused-09.inx"));
    must(nine.refusal().words() == "refused 9: a header record, block or map is missing at an END record, line 27", "9");
    // A text of no bytes has no address.
    const auto empty = ionex::MapSet::read({});
    must(empty.refusal().words() == "refused 10: the text ends before END OF FILE, line 1", "an empty text");
    try {
        (void)*seven;
        must(false, "a refused set is none");
    } catch (const std::bad_variant_access &) {
    }
}

// Two TEC maps, an RMS map, and no height map: an area that is empty.
static void asked(const ionex::MapSet &maps)
{
    must(maps.maps() == 2 && maps.layers() == 1 && maps.rows() == 2 && maps.columns() == 3, "the grid");
    must(maps.values(ionex::Kind::tec).size() == 12 && maps.values(ionex::Kind::height).empty(), "the areas");
    const ionex::Place middle{500, 500};
    const auto tec = maps.ask(middle, at("2000-01-01T00:30:00"));
    must(tec && tec->text() == "0.550 TECU" && tec->thousandths == 550, "ask");
    const auto height = maps.ask(middle, at("2000-01-01"), ionex::Kind::height);
    must(!height && height.refusal().number == IONEX_NO_VALUE, "no height map");
    const auto late = maps.ask(middle, at("2000-01-01T02:00:01"));
    must(late.refusal().number == IONEX_OUTSIDE_TIME, "20");
    must(maps.ask(middle, at("2000-01-01"), ionex::Kind::tec, ionex::Method::sun).refusal().number == IONEX_UNSERVED, "24");
    must(maps.ask(middle, at("2000-01-01"), ionex::Kind::tec, ionex::Method::nearest)->thousandths == 300, "nearest");

    const auto all = maps.ask_all({{middle, at("2000-01-01T00:30:00")}, {{9001, 0}, at("2000-01-01")}});
    must(all && all->size() == 2, "ask_all");
    must((*all)[0] && (*all)[0]->thousandths == 550 && (*all)[1].refusal().number == IONEX_OUTSIDE_GRID, "its answers");
    must(maps.ask_all({}) && maps.ask_all({})->empty(), "no question at all");
    const auto sun = maps.ask_all({}, ionex::Kind::tec, ionex::Method::sun);
    must(!sun && sun.refusal().number == IONEX_UNSERVED, "ask_all refused");

    const auto delay = maps.delay({0, 1000}, at("2000-01-01"), 1.0e9);
    must(delay && delay->tecu == 0.5 && delay->metres > 0.20149 && delay->metres < 0.20151, "delay");
    must(maps.delay({0, 1000}, at("2000-01-01"), 3.0e9).refusal().number == IONEX_UNSERVED_CARRIER, "25");
}

static void explained(const ionex::MapSet &maps)
{
    const auto why = maps.explain({500, 500}, at("2000-01-01T00:30:00"));
    must(why && why->nodes.size() == 8 && why->answer.thousandths == 550, "explain");
    std::int64_t sum = 0, weights = 0;
    for (const auto &node : why->nodes) {
        sum += node.value.thousandths * node.weight;
        weights += node.weight;
    }
    must(weights == why->denominator && sum == 550 * weights, "the sum of the nodes");
    must(why->nodes[0].map == 1 && why->nodes[0].row == 0 && why->nodes[0].value.thousandths == 100, "the first node");
    const auto lacking = maps.explain({0, 2000}, at("2000-01-01T02:00:00"), ionex::Kind::rms).refusal();
    must(lacking.number == IONEX_NO_VALUE && lacking.lacking && lacking.lacking->map == 2 && lacking.lacking->row == 1 &&
             lacking.lacking->column == 2 && lacking.lacking->cause == IONEX_CAUSE_ABSENT,
         "the node without a value");
}

static void written_and_joined(const std::string &text, const ionex::MapSet &maps)
{
    must(*maps.write() == load("accepted-canonical.expected"), "write");
    must(maps.join(maps).refusal().number == IONEX_APART, "41");
    // From 0 to 2 o'clock, and from 2 to 4.
    std::string later = text;
    const auto turned = [&later](const std::string &from, const std::string &to) {
        for (std::size_t place = 0; (place = later.find(from, place)) != std::string::npos; place += to.size())
            later.replace(place, from.size(), to);
    };
    turned("     2     0     0", "     4     0     0");
    turned("     0     0     0", "     2     0     0");
    const auto both = maps.join(*ionex::MapSet::read(later));
    must(both && both->maps() == 3 && both->epochs().size() == 3 && both->values(ionex::Kind::tec).size() == 18, "join");
    must(both->values(ionex::Kind::height).empty() && both->values(ionex::Kind::rms).size() == 18, "its kinds");
    // The shared map is the later set's: 0.1 at the first node.
    must(both->ask({1000, 0}, at("2000-01-01T02:00:00"))->thousandths == 100, "the shared map");
    must(bool(ionex::MapSet::read(*both->write())), "a joined set can be read again");
}

static void words()
{
    using ionex::Place;
    must(Place::parse("-47.25,8.5")->lat == -4725 && Place::parse("47,-8.05")->lon == -805, "places");
    for (const char *word : {"", "5", "5.001,5", "5.,5", "5,5,5", "5,5 ", "a,b", "1234,5", "5.5.5,1"})
        must(!Place::parse(word), word);
    must(at("1995-10-15").second == 3022704000 && at("2000-02-29T23:59:59").second == at("2000-03-01").second - 1, "times");
    must(ionex::Epoch::from_unix(0).second == at("1970-01-01").second, "Unix");
    for (const char *word : {"", "2000-02-30", "1900-02-29", "2200-01-01", "2000-1-1", "2000-01-01T", "2000-01-01T00:00",
                             "2000-01-01T00:00:00Z", "2000-01-01T24:00:00", "2000-13-01", "2000-00-01", "2000-01-00"})
        must(!ionex::Epoch::parse(word), word);
    must(at("2000-01-01").moved(-1)->second == at("1999-12-31T23:59:59").second, "moved");
    must(at("1900-01-01").moved(-1).refusal().number == IONEX_OUT_OF_RANGE, "moved too far");
    must(ionex::Value{-5, ionex::Kind::height}.text() == "-0.005 km", "a value in words");
    must(std::string(ionex_words(99)) == "an answer that this header file does not know", "no such answer");
}

int main(int, char **argv)
{
    folder = argv[1];
    const auto text = load("accepted-canonical.inx");
    const auto maps = ionex::MapSet::read(text);
    if (!maps) {
        std::cout << maps.refusal().words() << '\n';
        return 1;
    }
    refusals();
    asked(*maps);
    explained(*maps);
    written_and_joined(text, *maps);
    words();
    return wrong;
}
