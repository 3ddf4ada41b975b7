// use: the C++ header beside values that were worked out by hand and the repository's examples, whose folder is the first word. The last line
// is 'N passed, M failed'.
#include <mezulobu.hpp>

#include <cstdio>
#include <fstream>
#include <iterator>

using mezulobu::Entry;
using mezulobu::Participant;
using mezulobu::Platform;

namespace {

constexpr std::uint32_t NV12 = 0x3231564e, YV12 = 0x32315659, ABGR8888 = 0x34324241;
int passed = 0, failed = 0;

void expect(bool good, const char *what)
{
    ++(good ? passed : failed);
    if (!good)
        std::printf("bindings: C++: another answer: %s\n", what);
}

mezulobu_heap heap(bool contiguous)
{
    mezulobu_heap it{};
    it.contiguous = contiguous;
    it.cpu = it.ram = true;
    return it;
}

Platform platform() { return {{heap(false), heap(true)}, {{0, ABGR8888, 0}, {0, NV12, 0}}, {MEZULOBU_SRGB, MEZULOBU_REC709}}; }

Participant camera()
{
    Participant it(MEZULOBU_USE_VIDEO);
    it.contiguous = it.cpu = it.ram = true;
    it.camping = 4;
    Entry captured(NV12, MEZULOBU_REC709);
    captured.min_size = {1440, 1080};
    captured.pitch_divisor = 64;
    it.list = {captured};
    return it;
}

Participant encoder(const Entry &encoded)
{
    Participant it(MEZULOBU_USE_VIDEO);
    it.ram = true;
    it.camping = 3;
    it.dedicated_slack = 1;
    it.list = {encoded};
    return it;
}

Participant display()
{
    Participant it(MEZULOBU_USE_DISPLAY);
    it.cpu = it.ram = true;
    it.camping = 2;
    it.list = {Entry(ABGR8888, MEZULOBU_SRGB), Entry(NV12, MEZULOBU_REC709 | MEZULOBU_REC2020)};
    return it;
}

// 4 + 3 + 1 + 2 buffers in the contiguous heap; 1440 is a multiple of 16, 1080 rises to 1088, and a row of 1440 bytes to 1472.
void camera_encoder_and_display()
{
    Entry encoded(NV12, MEZULOBU_REC709);
    encoded.max_size = {4096, 2304};
    encoded.size_alignment = {16, 16};
    const auto s = mezulobu::negotiate(platform(), {camera(), encoder(encoded), display()});
    expect(s && s->count == 10 && s->bytes == 2402304 && s->heap == 1 && s->coherency == MEZULOBU_COHERENT_RAM, "settings");
    expect(s && s->has_image() && s->image.format == NV12 && s->image.width == 1440 && s->image.height == 1088, "an image");
    const auto layout = mezulobu::planes(NV12, 0, 1472, 1088);
    expect(layout && layout->n_planes == 2 && layout->planes[1].offset == 1601536 && layout->planes[1].rows == 544, "planes");
    expect(!mezulobu::planes(0, 0, 64, 64), "no format, no planes");
}

void refusals()
{
    Entry small(NV12, MEZULOBU_REC709);
    small.max_size = {640, 480};
    const auto no = mezulobu::negotiate(platform(), {camera(), encoder(small)});
    expect(!no && no.error().status == MEZULOBU_NO && no.error().participant() == 1u && no.error().field_name() == "max_size", "max_size");
    expect(!no && no.error().text() == "NO: participant 1: max_size", "the words of a refusal");
    const auto alone = mezulobu::negotiate(platform(), {encoder(Entry(YV12, MEZULOBU_REC709))});
    expect(!alone && alone.error().text() == "NO: participant 0: pixel_format, even alone", "nothing even alone");
    const auto refused = mezulobu::negotiate(platform(), {camera(), Participant(0)});
    expect(!refused && refused.error().text() == "REFUSED: participant 1: usage", "no usage");
    const auto no_heaps = mezulobu::negotiate({{}, {{0, NV12, 0}}, {MEZULOBU_SRGB}}, {});
    expect(!no_heaps && no_heaps.error().text() == "REFUSED: the platform: heaps", "no heaps");
    const auto nobody = mezulobu::negotiate(platform(), {});
    expect(nobody && nobody->count == 1 && nobody->bytes == 1 && !nobody->has_image(), "nobody");
}

void results()
{
    const auto half = [](int it) -> mezulobu::expected<int, std::string> {
        if (it % 2)
            return mezulobu::unexpected{std::string("odd")};
        return it / 2;
    };
    expect(half(4).and_then(half).value() == 1, "a value goes on");
    expect(half(6).and_then(half).error() == "odd" && half(3).and_then(half).error() == "odd", "a reason stays");
    expect(half(3).value_or(7) == 7 && half(8).value_or(7) == 4, "another value in place of a reason");
}

std::string content(const std::string &name)
{
    std::ifstream file(name, std::ios::binary);
    return {std::istreambuf_iterator<char>(file), {}};
}

void texts(const std::string &folder)
{
    for (const char *name : {"camera_nv12_stride_64", "late_screen_recorder", "secure_video"}) {
        const std::string at = folder + "/" + name, script = content(at + ".json"), report = content(at + ".out");
        const std::string proof = content(at + ".proof");
        expect(!report.empty() && mezulobu::run(script).value_or("") == report, name);
        const auto both = mezulobu::run_with_certificate(script);
        expect(both && both->text == report && both->certificate == proof, name);
        const auto answer = mezulobu::check(script, proof);
        expect(answer && answer->status == MEZULOBU_DONE && answer->text.rfind("yes ", 0) == 0, name);
    }
    const auto other = mezulobu::check(content(folder + "/secure_video.json"), content(folder + "/one_participant.proof"));
    expect(other && other->status == MEZULOBU_NO, "a certificate of another script");
    const auto refused = mezulobu::run("{");
    expect(!refused && refused.error().status == MEZULOBU_REFUSED && refused.error().words.rfind("script refused: Q2", 0) == 0, "no JSON");
    expect(mezulobu::check("{", "{").error().status == MEZULOBU_REFUSED, "a check of no JSON");
}

void explanations(const std::string &folder)
{
    const auto well = mezulobu::explain(content(folder + "/one_participant.json"), "one.json");
    expect(well && well->status == MEZULOBU_DONE && !well->text.empty(), "all well");
    const auto not_well = mezulobu::explain(content(folder + "/camera_too_wide_for_encoder.json"));
    expect(not_well && not_well->status == MEZULOBU_NO, "not all well");
    const auto faulty = mezulobu::explain_json("{", "broken.json");
    expect(faulty && faulty->status == MEZULOBU_REFUSED && faulty->text.find("broken.json") != std::string::npos, "a fault");
}

// A text above the first room is asked for again.
void a_long_report(const std::string &folder)
{
    std::string script = content(folder + "/one_participant.json"), checks;
    for (int i = 0; i < 4094; i++)
        checks += R"(,{"call":"check","on":"root"})";
    script.insert(script.rfind("]}"), checks);
    const auto report = mezulobu::run(script);
    expect(report && report->size() > mezulobu::detail::room, "a long report");
}

} // namespace

int main(int n, char **words)
{
    if (n != 2)
        return 2;
    camera_encoder_and_display();
    refusals();
    results();
    texts(words[1]);
    explanations(words[1]);
    a_long_report(words[1]);
    std::printf("%d passed, %d failed\n", passed, failed);
    return failed != 0;
}
