/* Makes the calls that it is told on its standard input, with the recorder for C++: see recorders/cases/README.md. */
#include "monitor_recorder.hpp"

#include <atomic>
#include <csignal>
#include <cstdlib>
#include <functional>
#include <iostream>
#include <list>
#include <map>
#include <mutex>
#include <optional>
#include <sstream>
#include <string>
#include <thread>
#include <vector>

using monitor::NotRecorded;
using monitor::Recorder;
using Words = std::vector<std::string>;

namespace {

/* What C++ can't say. */
struct Cannot {};

/* The recorder of the process and those of its strands, with the words by which they are called. */
std::optional<Recorder> process;
std::string process_word;
std::map<std::string, Recorder> strands;
std::map<std::string, monitor::Mutex> locks;
std::string refusal; /* the text of the last one */
std::optional<std::string> said; /* the text of the note of the call, if it has one */
std::mutex printing;

void answer(const std::string &text, const std::string &id = "")
{
    std::lock_guard<std::mutex> alone(printing);
    std::cout << text << (id.empty() ? "" : " ") << id << std::endl;
}

const char *word_of(monitor_status status)
{
    static const std::map<monitor_status, const char *> words = {
        {MONITOR_PROCESS_NAME, "process-name"}, {MONITOR_VARIABLE_NAME, "variable-name"},
        {MONITOR_VARIABLES, "variables"},       {MONITOR_EVENTS, "events"},
        {MONITOR_ID, "id"},                     {MONITOR_ID_TWICE, "id-twice"},
        {MONITOR_FORK, "fork"},                 {MONITOR_BROKEN, "broken"},
        {MONITOR_ENDED, "ended"},               {MONITOR_NAME_TWICE, "name-twice"},
        {MONITOR_PROCESSES, "processes"},       {MONITOR_NO_PLACE, "no-place"},
        {MONITOR_NOT_ENDED, "not-ended"},       {MONITOR_NO_NOTES, "notes"},
        {MONITOR_WHERE, "place"},               {MONITOR_RUNNING, "running"},
        {MONITOR_NOT_AGAIN, "again"}, {MONITOR_NOT_LONG, "long"}, {MONITOR_TOKEN, "token"}};
    return words.at(status);
}

/* The text for which a word stands: `%` and two digits are a byte, and `%` alone is no text at all. */
std::string text_of(const std::string &word)
{
    std::string text;
    for (std::size_t i = 0; i < word.size(); i++) {
        if (word[i] == '%' && i + 2 < word.size()) {
            text += static_cast<char>(std::stoi(word.substr(i + 1, 2), nullptr, 16));
            i += 2;
        } else if (word != "%") {
            text += word[i];
        }
    }
    return text;
}

std::int64_t value_of(const std::string &word)
{
    if (word == "true" || word == "false")
        return word == "true";
    std::int64_t value = std::strtoll(word.c_str(), nullptr, 10);
    if (std::to_string(value) != word)
        throw Cannot();
    return value;
}

/* The settings of a call, with their names. */
class Given {
public:
    Given(const Words &words, std::size_t first)
    {
        for (std::size_t i = first; i < words.size(); i++) {
            std::size_t sign = words[i].rfind('=');
            names_.push_back(text_of(words[i].substr(0, sign)));
            if (names_.back().find('\0') != std::string::npos)
                throw Cannot();
            settings_.push_back({names_.back().c_str(), value_of(words[i].substr(sign + 1))});
        }
    }

    const monitor::Settings &settings() const { return settings_; }

private:
    std::list<std::string> names_;
    monitor::Settings settings_;
};

/* Runs so many threads, and says whether each did its work. */
bool run(int count, const std::function<void(int)> &work)
{
    std::atomic<int> failed{0};
    std::vector<std::thread> threads;
    for (int i = 0; i < count; i++)
        threads.emplace_back([&, i] {
            try {
                work(i);
            } catch (const std::exception &) {
                failed++;
            }
        });
    for (std::thread &thread : threads)
        thread.join();
    return failed == 0;
}

bool take_turns(Recorder &recorder, int count, int turns)
{
    int total = 0;
    return run(count, [&](int number) {
        std::string n = std::to_string(number), x = "x" + n, y = "y" + n;
        for (int turn = 0; turn < turns; turn++) {
            std::string id = recorder.send({{x.c_str(), turn}});
            recorder.event({{y.c_str(), std::stoll(id.substr(id.rfind('-') + 1))}});
            recorder.receive("m" + n + "-" + std::to_string(turn));
            std::lock_guard<Recorder> together(recorder);
            recorder.event({{"total", ++total}});
        }
    });
}

bool send_all(Recorder &recorder, int count)
{
    return run(count, [&](int) {
        try {
            for (;;)
                answer("sent", recorder.send());
        } catch (const NotRecorded &) {
        }
    });
}

/* Runs so many threads, each with a strand of its own that takes turns, and says whether all was recorded. */
bool with_strands(Recorder &recorder, int count, int turns, const std::function<void(Recorder &, int)> &take_turn)
{
    std::vector<Recorder> begun;
    for (int i = 0; i < count; i++)
        begun.push_back(recorder.strand("strand" + std::to_string(i)));
    bool is_done = run(count, [&](int number) {
        for (int turn = 0; turn < turns; turn++)
            take_turn(begun[number], turn);
        begun[number].end();
    });
    for (Recorder &strand : begun)
        recorder.join(strand);
    return is_done;
}

bool take_strands(Recorder &recorder, int count, int turns)
{
    return with_strands(recorder, count, turns, [](Recorder &strand, int turn) { strand.event({{"x", turn}}); });
}

void go_inside(Recorder &strand)
{
    strand.event({{"x", 1}});
    strand.event({{"x", 0}});
}

/* Has strands go inside by turns, by a lock if they are to have one. */
bool contend(Recorder &recorder, int count, int turns, bool is_locked)
{
    monitor::Mutex mutex;
    return with_strands(recorder, count, turns, [&](Recorder &strand, int) {
        monitor::Lockable mine(mutex, strand);
        if (is_locked) {
            std::lock_guard<monitor::Lockable> held(mine);
            go_inside(strand);
        } else {
            go_inside(strand);
        }
    });
}

Recorder from_place(const std::string &name, const std::string &place, int options)
{
    setenv("MONITOR_TO", place.c_str(), 1);
    return Recorder::from_environment(name, options);
}

/* Makes a recording and answers, if the call is one that does so. */
bool open(const Words &words)
{
    if (words[0] == "file")
        process = Recorder::to_file(text_of(words[1]), text_of(words[2]));
    else if (words[0] == "noted")
        process = Recorder::to_file(text_of(words[1]), text_of(words[2]), MONITOR_NOTES);
    else if (words[0] == "replaced")
        process = Recorder::to_file(text_of(words[1]), text_of(words[2]), MONITOR_REPLACE);
    else if (words[0] == "again")
        process = Recorder::to_file(text_of(words[1]), text_of(words[2]), MONITOR_AGAIN);
    else if (words[0] == "noted-again")
        process = Recorder::to_file(text_of(words[1]), text_of(words[2]), MONITOR_NOTES | MONITOR_AGAIN);
    else if (words[0] == "long")
        process = Recorder::to_file(text_of(words[1]), text_of(words[2]), MONITOR_LONG);
    else if (words[0] == "place")
        process = from_place(text_of(words[1]), text_of(words[2]), 0);
    else if (words[0] == "again-at")
        process = from_place(text_of(words[1]), text_of(words[2]), MONITOR_AGAIN);
    else if (words[0] == "long-at")
        process = from_place(text_of(words[1]), text_of(words[2]), MONITOR_LONG);
    else if (words[0] == "port")
        process = Recorder::to_port(text_of(words[1]), static_cast<std::uint16_t>(std::stoi(words[2])),
                                    std::stod(words[3]));
    else if (words[0] == "token-port")
        process = Recorder::to_port(text_of(words[1]), static_cast<std::uint16_t>(std::stoi(words[2])),
                                    std::stod(words[3]), text_of(words[4]));
    else
        return false;
    process_word = words[1];
    strands.clear();
    locks.clear();
    answer("recorded");
    return true;
}

Recorder &called(const std::string &word)
{
    auto strand = strands.find(word);
    if (strand != strands.end())
        return strand->second;
    if (!process || word != process_word)
        throw Cannot();
    return *process;
}

/* Makes a call that records an event, and gives a text for its note. */
std::string record_noted(Recorder &recorder, const Words &words)
{
    const std::string &call = words[0];
    if (call == "join")
        recorder.join(called(words[1]), Given(words, 2).settings(), *said);
    else if (call == "event")
        recorder.event(Given(words, 1).settings(), *said);
    else if (call == "send")
        return recorder.send(Given(words, 1).settings(), *said);
    else if (call == "send-as")
        recorder.send_as(text_of(words[1]), Given(words, 2).settings(), *said);
    else if (call == "receive")
        recorder.receive(text_of(words[1]), Given(words, 2).settings(), said->c_str());
    else
        throw Cannot();
    return "";
}

/* Makes a call that records one event or none, and gives what is answered with it. */
std::string record(Recorder &recorder, const Words &words)
{
    if (said)
        return record_noted(recorder, words);
    const std::string &call = words[0];
    if (call == "end")
        recorder.end();
    else if (call == "events")
        return std::to_string(recorder.events());
    else if (call == "lock")
        locks[words[1]].lock(recorder);
    else if (call == "unlock")
        locks[words[1]].unlock(recorder);
    else if (call == "strand")
        strands.insert_or_assign(words[1], recorder.strand(text_of(words[1])));
    else if (call == "join")
        recorder.join(called(words[1]), Given(words, 2).settings());
    else if (call == "event")
        recorder.event(Given(words, 1).settings());
    else if (call == "send")
        return recorder.send(Given(words, 1).settings());
    else if (call == "send-as")
        recorder.send_as(text_of(words[1]), Given(words, 2).settings());
    else if (call == "receive")
        recorder.receive(text_of(words[1]), Given(words, 2).settings());
    else
        throw Cannot();
    return "";
}

/* Has SIGWINCH interrupt calls of the system that the recorder makes: none is made again by the system. */
bool handle_signals()
{
    struct sigaction action = {};
    action.sa_handler = [](int) {};
    return sigaction(SIGWINCH, &action, nullptr) == 0;
}

void let_signals(int how)
{
    sigset_t handled;
    sigemptyset(&handled);
    sigaddset(&handled, SIGWINCH);
    pthread_sigmask(how, &handled, nullptr);
}

void make(Recorder *recorder, const Words &words)
{
    if (words[0] == "signals") {
        answer(handle_signals() ? "recorded" : "failed");
    } else if (words[0] == "said") {
        answer("recorded", refusal);
    } else if (words[0] == "in") {
        make(&called(words[1]), {words.begin() + 2, words.end()});
    } else if (words[0] == "note") {
        said = text_of(words[1]);
        make(recorder, {words.begin() + 2, words.end()});
    } else if (words[0] == "locked" || words[0] == "unlocked") {
        bool is_locked = words[0] == "locked";
        answer(contend(*recorder, std::stoi(words[1]), std::stoi(words[2]), is_locked) ? "recorded" : "failed");
    } else if (words[0] == "close") {
        if (recorder != nullptr)
            recorder->close();
        answer("recorded");
    } else if (open(words)) {
        return;
    } else if (recorder == nullptr) {
        throw Cannot();
    } else if (words[0] == "threads") {
        answer(take_turns(*recorder, std::stoi(words[1]), std::stoi(words[2])) ? "recorded" : "failed");
    } else if (words[0] == "strands") {
        answer(take_strands(*recorder, std::stoi(words[1]), std::stoi(words[2])) ? "recorded" : "failed");
    } else if (words[0] == "flood") {
        answer(send_all(*recorder, std::stoi(words[1])) ? "recorded" : "failed");
    } else {
        answer("recorded", record(*recorder, words));
    }
}

} // namespace

int main()
{
    let_signals(SIG_BLOCK); /* what reads the calls would end by one */
    for (std::string line; std::getline(std::cin, line);) {
        std::istringstream rest(line);
        Words words;
        said.reset();
        for (std::string word; rest >> word;)
            words.push_back(word);
        let_signals(SIG_UNBLOCK);
        try {
            make(process ? &*process : nullptr, words);
        } catch (const NotRecorded &refused) {
            refusal = refused.what();
            answer("refused", word_of(refused.status()));
        } catch (const std::system_error &) {
            answer("failed");
        } catch (const Cannot &) {
            answer("cannot");
        }
        let_signals(SIG_BLOCK);
    }
    return 0;
}
