/* Tests of monitor_recorder.hpp that the shared cases can't say, in the folder that the argument names: see test.sh. */
#include "monitor_recorder.hpp"

#include <cerrno>
#include <cstdlib>
#include <fcntl.h>
#include <fstream>
#include <iostream>
#include <iterator>
#include <mutex>
#include <optional>
#include <stdexcept>
#include <string>
#include <thread>
#include <type_traits>
#include <unistd.h>
#include <utility>
#include <vector>

using monitor::NotRecorded;
using monitor::Recorder;

namespace {

int failures = 0;

#define CHECK(condition) \
    ((condition) ? (void)0 : (void)(failures++, std::cout << __FILE__ ":" << __LINE__ << ": not so: " #condition "\n"))

std::string text_of(const std::string &path)
{
    std::ifstream file(path, std::ios::binary);
    return {std::istreambuf_iterator<char>(file), {}};
}

Recorder opened(const std::string &name)
{
    std::string path = name + ".stream";
    unlink(path.c_str());
    return Recorder::to_file(name, path);
}

/* Why a call is refused; MONITOR_RECORDED if it isn't. */
template <typename Call> monitor_status refusal(Call call)
{
    try {
        call();
    } catch (const NotRecorded &refused) {
        CHECK(std::string(refused.what()) == monitor_text(refused.status()));
        return refused.status();
    }
    return MONITOR_RECORDED;
}

/* What the system says to a recording to this path; nothing if it can be made. */
std::error_code system_refusal(const std::string &path)
{
    try {
        Recorder::to_file("left", path);
    } catch (const std::system_error &error) {
        return error.code();
    }
    return {};
}

void test_a_recording()
{
    Recorder left = opened("left");
    left.event();
    left.event({{"inside", true}, {"waiting", 0}});
    CHECK(left.send({{"inside", 0}}) == "left-1");
    left.send_as("own");
    left.receive("right-1", monitor::Settings{{"money", 70}});
    CHECK(left.events() == 5);
    left.end();
    CHECK(text_of("left.stream") ==
          "{\"process\":\"left\"}\n{}\n{\"set\":{\"inside\":1,\"waiting\":0}}\n"
          "{\"send\":\"left-1\",\"set\":{\"inside\":0}}\n"
          "{\"send\":\"own\"}\n{\"recv\":\"right-1\",\"set\":{\"money\":70}}\n{\"end\":true}\n");
    left.end();
    left.close();
    CHECK(refusal([&] { left.event(); }) == MONITOR_ENDED);
    CHECK(refusal([&] { left.events(); }) == MONITOR_ENDED);
}

void test_destruction()
{
    try {
        Recorder left = opened("left");
        left.event();
        throw std::runtime_error("the block is left");
    } catch (const std::runtime_error &) {
    }
    CHECK(text_of("left.stream") == "{\"process\":\"left\"}\n{}\n");
}

void test_moves()
{
    static_assert(!std::is_copy_constructible_v<Recorder> && !std::is_copy_assignable_v<Recorder>);
    static_assert(std::is_nothrow_move_constructible_v<Recorder> && std::is_nothrow_move_assignable_v<Recorder>);
    Recorder left = opened("left");
    Recorder moved = std::move(left);
    CHECK(refusal([&] { left.event(); }) == MONITOR_ENDED);
    moved.event();
    Recorder other = opened("other");
    other = std::move(moved);
    other.end();
    CHECK(text_of("left.stream") == "{\"process\":\"left\"}\n{}\n{\"end\":true}\n");
    CHECK(text_of("other.stream") == "{\"process\":\"other\"}\n");
}

void test_strands()
{
    unlink("worker.stream");
    Recorder left = opened("left");
    Recorder worker = left.strand("worker");
    CHECK(refusal([&] { left.join(worker); }) == MONITOR_NOT_ENDED);
    std::thread([&] {
        worker.event({{"busy", 1}});
        worker.end();
    }).join();
    left.join(worker, {{"done", 1}});
    CHECK(refusal([&] { worker.event(); }) == MONITOR_ENDED);
    left.end();
    CHECK(refusal([&] { opened("other").join(worker); }) == MONITOR_NOT_ENDED);
    CHECK(text_of("left.stream") == "{\"process\":\"left\"}\n{\"send\":\"left-1\"}\n"
                                    "{\"recv\":\"worker-1\",\"set\":{\"done\":1}}\n{\"end\":true}\n");
}

/* A strand may be destroyed before its process or after it, and be asked for something in between. */
void test_the_order_of_destruction()
{
    unlink("first.stream");
    unlink("second.stream");
    std::optional<Recorder> left = opened("left");
    std::optional<Recorder> first = left->strand("first");
    Recorder second = left->strand("second");
    first.reset();
    left.reset();
    CHECK(refusal([&] { second.event(); }) == MONITOR_ENDED);
    CHECK(refusal([&] { second.strand("third"); }) == MONITOR_ENDED);
    second.end();
    CHECK(text_of("first.stream") ==
          "{\"process\":\"first\"}\n{\"recv\":\"left-1\"}\n{\"send\":\"first-1\"}\n{\"end\":true}\n");
    CHECK(text_of("second.stream") == "{\"process\":\"second\"}\n{\"recv\":\"left-2\"}\n");
}

void test_refusals()
{
    std::string cut("a\0b", 3);
    CHECK(refusal([&] { Recorder::to_file("1", "none.stream"); }) == MONITOR_PROCESS_NAME);
    CHECK(refusal([&] { Recorder::to_file(cut, "none.stream"); }) == MONITOR_PROCESS_NAME);
    unsetenv("MONITOR_TO");
    CHECK(refusal([&] { Recorder::from_environment("left"); }) == MONITOR_WHERE);
    Recorder left = opened("left");
    CHECK(refusal([&] { left.send_as(cut); }) == MONITOR_ID);
    CHECK(refusal([&] { left.receive(cut); }) == MONITOR_ID);
    CHECK(refusal([&] { left.strand(cut); }) == MONITOR_PROCESS_NAME);
    CHECK(refusal([&] { left.event({{"x", 1}, {"x", 2}}); }) == MONITOR_VARIABLE_NAME);
    CHECK(refusal([&] { left.join(left); }) == MONITOR_NOT_ENDED);
    CHECK(system_refusal("left.stream") == std::errc::file_exists);
    CHECK(system_refusal("none/left.stream") == std::errc::no_such_file_or_directory);
    CHECK(system_refusal(std::string("none\0.stream", 12)) == std::errc::invalid_argument);
    left.end();
    CHECK(text_of("left.stream") == "{\"process\":\"left\"}\n{\"end\":true}\n");
}

/* To a descriptor; and what the system says of where the environment leads. */
void test_long_recordings()
{
    std::string id(MONITOR_LONG_ID_BYTE_LIMIT, 'x');
    auto left = Recorder::to_descriptor("left", open("long", O_WRONLY | O_CREAT | O_TRUNC, 0666), MONITOR_LONG);
    left.receive(id);
    left.end();
    setenv("MONITOR_TO", "/dev/null/none", 1);
    try {
        Recorder::from_environment("left");
        CHECK(false);
    } catch (const std::system_error &error) {
        CHECK(std::string(error.what()).find("MONITOR_TO is /dev/null/none") == 0 && error.code().value() == ENOTDIR);
    }
    setenv("MONITOR_TO", ":7411", 1);
    CHECK(refusal([] { Recorder::from_environment("left", MONITOR_LONG); }) == MONITOR_NOT_LONG);
    unsetenv("MONITOR_TO");
}

void test_locks()
{
    Recorder left = opened("left");
    int shared = 0;
    std::vector<std::thread> threads;
    for (int i = 0; i < 4; i++)
        threads.emplace_back([&] {
            for (int turn = 0; turn < 100; turn++) {
                std::lock_guard<Recorder> together(left);
                left.event({{"shared", ++shared}});
            }
        });
    for (std::thread &thread : threads)
        thread.join();
    left.end();
    std::string wanted = "{\"process\":\"left\"}\n";
    for (int number = 1; number <= 400; number++)
        wanted += "{\"set\":{\"shared\":" + std::to_string(number) + "}}\n";
    CHECK(text_of("left.stream") == wanted + "{\"end\":true}\n");
}

} // namespace

/* Sees that a note of this process has this number and text, and this line of this file. */
void see_note(const std::string &process, int number, const std::string &text, int line)
{
    std::string head = "{\"process\": \"" + process + "\", \"event\": " + std::to_string(number) + ", \"text\": \"" +
                       text + "\", \"place\": \"" + __FILE__ + ":" + std::to_string(line) + "\", \"clock\": ";
    if (text_of(process + ".notes.jsonl").find(head) == std::string::npos) {
        failures++;
        std::cout << "there is no note\n" << head << "\nin\n" << text_of(process + ".notes.jsonl");
    }
}

void test_notes()
{
    const int both = MONITOR_NOTES | MONITOR_REPLACE;
    std::optional<Recorder> left = Recorder::to_file("left", "left.stream", both);
    left->event();
    int line = __LINE__ - 1;
    left->event({{"x", 1}}, "said");
    std::string id = left->send({}, std::string("sent ") + "on");
    left->send_as("own");
    left->receive("other", {{"x", 2}}, "came");
    {
        Recorder worker = left->strand("worker");
        worker.end();
        left->join(worker, {}, "joined");
        Recorder again = left->strand("again");
        Recorder other = std::move(again);
    }
    left->end();
    see_note("left", 1, "", line);
    see_note("left", 2, "said", line + 2);
    see_note("left", 3, "sent on", line + 3);
    see_note("left", 4, "", line + 4);
    see_note("left", 5, "came", line + 5);
    see_note("left", 6, "", line + 7);
    see_note("worker", 1, "", line + 7);
    see_note("worker", 2, "", line + 8);
    see_note("left", 7, "joined", line + 9);
    see_note("again", 2, "", line + 10);
    Recorder::to_file("left", "left.stream", MONITOR_REPLACE).end();
    CHECK(text_of("left.notes.jsonl").empty());
    CHECK(system_refusal("left.stream") == std::errc::file_exists);
    CHECK(refusal([] { Recorder::to_file("left", "left", MONITOR_NOTES); }) == MONITOR_NO_NOTES);
}

void test_tokens()
{
    const std::string tokens[] = {std::string("a\0b", 3), "a\n", std::string(MONITOR_TOKEN_BYTE_LIMIT + 1, 'x')};
    for (const std::string &token : tokens)
        CHECK(refusal([&] { Recorder::to_port("left", 1, 0, token); }) == MONITOR_TOKEN);
}

void test_mutexes()
{
    Recorder left = Recorder::to_file("left", "left.stream", MONITOR_REPLACE);
    Recorder a = left.strand("a"), b = left.strand("b");
    monitor::Mutex mutex;
    monitor::Lockable mine(mutex, a), others(mutex, b);
    {
        std::lock_guard<monitor::Lockable> held(mine);
        CHECK(!mutex.try_lock(b));
        std::unique_lock<monitor::Lockable> waits(others, std::try_to_lock);
        CHECK(!waits.owns_lock());
    }
    b.end();
    CHECK(refusal([&] { std::lock_guard<monitor::Lockable> held(others); }) == MONITOR_ENDED);
    CHECK(mutex.try_lock(left));
    mutex.unlock(left);
    mutex.lock(a);
    left.end();
    mutex.unlock(a); // which isn't there any more
    const std::string of_left = "{\"recv\":\"a-1\"}\n{\"send\":\"left-3\"}\n{\"end\":true}\n";
    const std::string of_a = "{\"send\":\"a-1\"}\n{\"recv\":\"left-3\"}\n{\"end\":true}\n";
    CHECK(text_of("left.stream").find(of_left) != std::string::npos);
    CHECK(text_of("a.stream").find(of_a) != std::string::npos);
}

int main(int, char **words)
{
    if (words[1] == nullptr || chdir(words[1]) != 0)
        return 2;
    for (auto test : {test_a_recording, test_destruction, test_moves, test_strands, test_the_order_of_destruction,
                      test_refusals, test_long_recordings, test_locks, test_notes, test_tokens, test_mutexes})
        test();
    return failures != 0;
}
