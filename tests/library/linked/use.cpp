// use NAME ..: runs each NAME.json in C++, with a text that grows until it has room. The last line is 'N passed, M
// failed'.
#include "mezulobu.h"
#include <fstream>
#include <iostream>
#include <iterator>
#include <string>

static std::string content(const std::string &name)
{
    std::ifstream file(name, std::ios::binary);
    return {std::istreambuf_iterator<char>(file), {}};
}

static std::string report(const std::string &script)
{
    std::string text(64, '\0');
    for (;;) {
        std::size_t size = text.size();
        int status = mezulobu_run(script.data(), script.size(), &text[0], &size, nullptr, nullptr);
        text.resize(size);
        if (status != MEZULOBU_TOO_SMALL)
            return status == MEZULOBU_DONE ? text : mezulobu_status_name(status);
    }
}

int main(int count, char **names)
{
    int passed = 0, failed = 0;
    for (int i = 1; i < count; i++) {
        std::string name = names[i];
        bool good = report(content(name + ".json")) == content(name + ".out");
        (good ? passed : failed)++;
        if (!good)
            std::cout << "library: another answer: " << name << '\n';
    }
    std::cout << passed << " passed, " << failed << " failed\n";
    return failed != 0;
}
