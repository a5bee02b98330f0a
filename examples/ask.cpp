// ask FILE LAT,LON TIME OUT: reads an IONEX file, prints the TEC at a place and time, and writes the file's canonical text.
// Exit status: 0 done, 1 refused, 2 a word or a file is wrong.
#include "ionex.hpp"
#include <cerrno>
#include <cstring>
#include <iostream>
#include <memory>

using File = std::unique_ptr<std::FILE, int (*)(std::FILE *)>;

static int wrong_file(const std::string &name)
{
    std::cerr << name << ": " << std::strerror(errno) << '\n';
    return 2;
}

static int refused(const ionex::Refusal &refusal)
{
    std::cerr << refusal.words() << '\n';
    return 1;
}

int main(int argc, char **argv)
{
    const std::vector<std::string> words(argv, argv + argc);
    const auto place = ionex::Place::parse(argc == 5 ? words[2] : "");
    const auto time = ionex::Epoch::parse(argc == 5 ? words[3] : "");
    if (!place || !time) {
        std::cerr << "usage: ask FILE LAT,LON TIME OUT, as: ask maps.inx 47.25,8.50 2010-12-04T06:30:00 canonical.inx\n";
        return 2;
    }
    const File in(std::fopen(argv[1], "rb"), std::fclose);
    std::string text, part(1 << 20, ' ');
    while (in && !std::feof(in.get()) && !std::ferror(in.get()))
        text.append(part, 0, std::fread(part.data(), 1, part.size(), in.get()));
    if (!in || std::ferror(in.get()))
        return wrong_file(words[1]);

    const auto maps = ionex::MapSet::read(text);
    if (!maps)
        return refused(maps.refusal());
    const auto tec = maps->ask(*place, *time);
    if (!tec)
        return refused(tec.refusal());
    std::cout << tec->text() << '\n';

    const auto canonical = maps->write();
    if (!canonical)
        return refused(canonical.refusal());
    File out(std::fopen(argv[4], "wb"), std::fclose);
    if (!out || std::fwrite(canonical->data(), 1, canonical->size(), out.get()) != canonical->size() ||
        std::fclose(out.release()) != 0)
        return wrong_file(words[4]);
    std::cout << canonical->size() << " bytes written\n";
}
