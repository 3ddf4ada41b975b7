// live: collections that live, beside what a run of the script that they write decides. The last line is 'N passed, M failed'.
#include <mezulobu.hpp>

#include <cstdio>
#include <poll.h>
#include <thread>

using mezulobu::Collection;
using mezulobu::Status;

namespace {

constexpr std::uint32_t NV12 = 0x3231564e;
constexpr const char *NO_USAGE = R"(S5 usage
 --> record:1:10: usage
  |
1 | {"usage":[]}
  |          ^^ the list is empty
  = allowed: a list of none alone, or of one or more of cpu, vulkan, display and video)";
int passed = 0, failed = 0;

void expect(bool good, const char *what)
{
    ++(good ? passed : failed);
    if (!good)
        std::printf("bindings: C++: another answer: %s\n", what);
}

mezulobu::Platform platform() { return {{{false, false, true, true, false}}, {{0, NV12, 0}}, {MEZULOBU_REC709}}; }

mezulobu::Participant asked(std::uint32_t camping, mezulobu_size max_size = {}, std::uint32_t min_count = 0)
{
    mezulobu::Participant it(MEZULOBU_USE_VIDEO);
    it.camping = camping;
    it.min_count = min_count;
    mezulobu::Entry entry(NV12, MEZULOBU_REC709);
    entry.min_size = {64, 64};
    entry.max_size = max_size;
    it.list = {entry};
    return it;
}

// Two collections of one that is made, and whose root is released.
std::pair<Collection, Collection> both()
{
    auto root = mezulobu::Allocator::of(platform()).value().allocate_shared().value();
    auto one = root.duplicate().value(), other = root.duplicate().value();
    expect(std::move(root).release().has_value() && !root, "the root is released");
    return {std::move(one).bind().value(), std::move(other).bind().value()};
}

// What is written is run to the same decision, and the certificate is right for it.
void is_written(const Collection &of, const char *decision)
{
    const auto written = of.script().value();
    const auto report = mezulobu::run(written.text);
    expect(report && report->find(decision) != std::string::npos, decision);
    const auto answer = mezulobu::check(written.text, written.certificate);
    expect(answer && answer->status == MEZULOBU_DONE, "a certificate of what is written");
}

void a_thread_waits_for_the_other()
{
    auto [camera, encoder] = both();
    expect(camera.set_name("camera").has_value() && camera.name_of(camera.node()).value() == "camera", "a name");
    expect(camera.set_name("n7").error() == Status{MEZULOBU_REFUSED}, "no name");
    expect(encoder.set_name("camera").error().text() == "set_name of n2: no: another node of the collection has this name", "another's name");
    expect(camera.name() == "camera" && encoder.name() == "n2", "names of their own");
    expect(camera.set_constraints(asked(2)).has_value(), "what a camera asks for");
    expect(!camera.check().value() && !camera.wait(1).value(), "nothing is decided");
    mezulobu::Settings settings;
    std::thread waiting([&settings, &camera = camera] { settings = camera.wait().value().value(); });
    expect(encoder.set_constraints(asked(3)).has_value(), "what an encoder asks for");
    waiting.join();
    expect(settings.count == 5 && settings.bytes == 64 * 64 * 3 / 2, "settings");
    pollfd descriptor{camera.descriptor(), POLLIN, 0};
    expect(poll(&descriptor, 1, 0) == 1, "a descriptor");
    is_written(camera, "domain / chosen - count 5 ");
    expect(camera.selection().value().empty(), "no groups");
    expect(camera.explain().value().find("camera") != std::string::npos && camera.explain_json().value()[0] == '{', "explanations");
    expect(std::move(camera).release().has_value() && !camera && encoder.check().value()->count == 5, "released");
}

void who_ends_too_early_fails_the_domain()
{
    auto [camera, encoder] = both();
    { const Collection gone = std::move(encoder); }
    expect(camera.check().error() == Status{MEZULOBU_DOMAIN_FAILED} && camera.check().error().name() == "DOMAIN_FAILED", "a failed domain");
    expect(camera.set_no_constraints().error().status == MEZULOBU_DOMAIN_FAILED, "nothing more is set");
    expect(camera.set_no_constraints().error().text()
               == "set_constraints of n1: E6 DomainFailed: the domain failed (somebody closed too early, or what it was attached to has no settings), or no settings were chosen; explain says which",
           "why nothing more is set");
}

void what_is_assigned_to_is_closed_first()
{
    auto [camera, encoder] = both();
    auto [other, viewer] = both();
    other = std::move(encoder);
    expect(!encoder && viewer.check().error() == Status{MEZULOBU_DOMAIN_FAILED}, "what it had is closed, and the other is empty");
    expect(camera.set_constraints(asked(1)).has_value() && other.set_constraints(asked(1)).has_value() && camera.check().value()->count == 2, "what it got lives");
}

void who_is_in_the_way_is_told_by_its_node()
{
    auto [camera, encoder] = both();
    expect(camera.set_constraints(asked(1)).has_value() && encoder.set_constraints(asked(1, {32, 32})).has_value(), "both are set");
    expect(camera.check().error() == Status{MEZULOBU_INTERSECTION_EMPTY}, "no settings");
    expect(camera.check().error().text() == "check of n1: E7 ConstraintsIntersectionEmpty: no settings meet everybody; explain says who is in the way",
           "why there are no settings");
    const auto why = encoder.refusal();
    expect(why.value().text() == "NO: node " + std::to_string(encoder.node()) + ": max_size, even alone", "by its node");
    expect(why && why->who == encoder.node() && why->field_name() == "max_size" && why->alone, "who is in the way");
    is_written(camera, "domain / empty");
}

void what_cannot_be_meant_is_refused()
{
    auto [camera, encoder] = both();
    expect(camera.set_constraints(mezulobu::Participant(0)).error().text() == "set_constraints of n1: the participant: usage", "no usage");
    expect(camera.set_constraints_record("{").error().number == 0, "no JSON");
    expect(camera.set_constraints_record("").error().text() == "set_constraints_record of n1: no JSON\nthe record is empty, where an object is due", "nothing in a record");
    const auto fault = camera.set_constraints_record("{\"usage\":[]}").error();
    expect(fault.number == 5 && fault.fault_name() == "S5 BadUsage" && fault.words == NO_USAGE && fault.text() == "set_constraints_record of n1: " + fault.words, "no usage in a record");
    expect(camera.set_constraints_record("{\"usage\":[\"cpu\"]}").has_value(), "a record");
    expect(camera.set_no_constraints().error().status == MEZULOBU_WRONG_STATE, "set once");
    expect(encoder.set_no_constraints().has_value() && camera.wait().value()->count == 1, "decided");
    expect(camera.refusal().error() == Status{MEZULOBU_NO}, "nobody is in the way");
    expect(mezulobu::Allocator::of({}).error().status == MEZULOBU_REFUSED, "no platform");
    const auto none = mezulobu::Allocator::of_record("{}").error();
    expect(none.status == MEZULOBU_REFUSED && none.text().find("Allocator::of_record: S3 heaps\n --> record:1:1: the record\n") == 0, "no platform in a record");
}

void the_first_alternative_that_can_be_had_is_selected()
{
    auto root = mezulobu::Allocator::of(platform()).value().allocate_shared().value();
    auto group = root.create_group().value();
    expect(group.set_name("either").has_value() && group.all_children_present().error() == Status{MEZULOBU_NO_CHILDREN}, "no children");
    auto one = group.create_child().value().bind().value(), two = group.create_child().value().bind().value();
    expect(std::move(group).release().error().text() == "release of either: E2 WrongState: a group is released after all_children_present" && group,
           "a group that isn't complete stays");
    expect(group.all_children_present().has_value() && std::move(group).release().has_value() && !group, "complete");
    expect(std::move(root).release().has_value(), "the root is released");
    expect(one.set_constraints(asked(1, {32, 32})).has_value() && two.set_constraints(asked(1)).has_value(), "both are set");
    expect(two.selection().value() == std::vector<std::uint8_t>{1} && one.check().error() == Status{MEZULOBU_NOT_SELECTED}, "the second one");
}

void a_client_makes_no_more_than_its_host_allows()
{
    auto root = mezulobu::Allocator::of(platform()).value().allocate_shared_limited(1).value();
    auto client = root.duplicate().value(), other = root.duplicate().value();
    auto made = client.duplicate().value();
    expect(client.duplicate().error() == Status{MEZULOBU_TOO_MANY_NODES}, "a second node below a client");
    expect(made.create_group().error() == Status{MEZULOBU_TOO_MANY_NODES}, "also by what it made");
    expect(other.create_group().has_value(), "another client is not bounded by it");
}

void a_late_participant_accepts_the_settings()
{
    const char *record = R"({"heaps":[{"heap_type":"ram","domains":["cpu"]}],"pairs":[{"pixel_format":"NV12"}],"color_spaces":["REC709"]})";
    auto camera = mezulobu::Allocator::of_record(record).value().allocate_shared().value().bind().value();
    expect(camera.set_constraints(asked(1, {}, 3)).has_value(), "room for one more");
    auto late = camera.attach_token().value().bind().value();
    expect(late.set_constraints(asked(1)).has_value() && late.wait().value()->count == 3 && camera.check().value()->count == 3, "accepted");
}

} // namespace

int main()
{
    a_thread_waits_for_the_other();
    who_ends_too_early_fails_the_domain();
    what_is_assigned_to_is_closed_first();
    who_is_in_the_way_is_told_by_its_node();
    what_cannot_be_meant_is_refused();
    the_first_alternative_that_can_be_had_is_selected();
    a_client_makes_no_more_than_its_host_allows();
    a_late_participant_accepts_the_settings();
    std::printf("%d passed, %d failed\n", passed, failed);
    return failed != 0;
}
