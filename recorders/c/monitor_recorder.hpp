/* The recorder of monitor_recorder.h for C++17: it closes itself, and throws errors.
 *
 *     auto left = monitor::Recorder::to_file("left", "left.stream");
 *     left.event({{"inside", 1}, {"waiting", 0}});        // these are their values from now on
 *     std::string message = left.send({{"money", 70}});   // BEFORE the message leaves; the id travels with it
 *     left.receive("right-1", {{"money", 80}});           // AFTER a message has come, with the id that came too
 *     left.end();
 *
 * A recorder that is destroyed before `end`, as by an exception, leaves no end line, since nobody knows what the
 * process would have done: `monitor` refuses the stream as `unended`. A strand ends by its destructor too:
 *
 *     auto worker = left.strand("worker");                // where the thread is started; it records to worker.stream
 *     std::thread thread([&] { work(worker); worker.end(); });
 *     thread.join();
 *     left.join(worker);                                  // AFTER the thread has been waited for
 *
 * Events have no names. With MONITOR_NOTES each has a note in left.notes.jsonl, of the line of the program that
 * recorded it, and of a text if one is given:
 *
 *     auto left = monitor::Recorder::to_file("left", "left.stream", MONITOR_NOTES);
 *     left.event({{"inside", 1}}, "the lock is ours");
 *
 * What `monitor` would refuse is thrown as monitor::NotRecorded, and what the system refuses as std::system_error. Then
 * nothing is recorded, but for a part of a line that the system may have written. monitor_recorder.h says more.
 *
 * Compile monitor_recorder.c as C, and link with it and with -pthread. */
#ifndef MONITOR_RECORDER_HPP
#define MONITOR_RECORDER_HPP

#include "monitor_recorder.h"

#include <atomic>
#include <cerrno>
#include <cstddef>
#include <cstdint>
#include <cstdlib>
#include <memory>
#include <mutex>
#include <stdexcept>
#include <string>
#include <system_error>
#include <utility>
#include <vector>

namespace monitor {

/* A variable and the value that it has from now on. If its type may not fit into 64 bits with a sign, or has more than
 * whole numbers, it narrows between braces, which compilers warn of or refuse. */
using Setting = monitor_setting;
using Settings = std::vector<Setting>;

/* A call that was refused, for what it was asked: the recorder goes on as if the call hadn't been made. */
class NotRecorded : public std::runtime_error {
public:
    explicit NotRecorded(monitor_status status)
        : std::runtime_error(monitor_text(status)), status_(status)
    {
    }

    monitor_status status() const noexcept { return status_; }

private:
    monitor_status status_;
};

/* What the note of an event says: a text, if there is one, and the line of the call of which this is the last argument,
 * by itself. The text has to be there until that call returns. */
class Note {
public:
    Note(const char *text = nullptr, const char *file = __builtin_FILE(), int line = __builtin_LINE()) noexcept
        : said_{file, line, text}
    {
    }

    Note(const std::string &text, const char *file = __builtin_FILE(), int line = __builtin_LINE()) noexcept
        : said_{file, line, text.c_str()}
    {
    }

    /* As the recorder for C takes it. */
    const monitor_note *said() const noexcept { return &said_; }

    /* The same place, without the text. */
    Note place() const noexcept { return Note(nullptr, said_.file, said_.line); }

private:
    monitor_note said_;
};

/* One process of the session, or a strand of one. Several threads may record by it, and none while it is moved, ended,
 * closed or destroyed. */
class Recorder {
public:
    /* Records to a new file. Options are MONITOR_NOTES, MONITOR_REPLACE, MONITOR_LONG and MONITOR_AGAIN; with the last
     * one the note is that of the receipt with which a later incarnation begins. */
    static Recorder to_file(const std::string &process, const std::string &path, int options = 0, const Note &note = {})
    {
        if (path.find('\0') != std::string::npos)
            throw std::system_error(EINVAL, std::generic_category(), "a path with a NUL");
        return made(process, [&](monitor_recorder **to) {
            return monitor_to_file_with_at(note.said(), process.c_str(), path.c_str(), options, to);
        });
    }

    /* Records to `monitor serve` on a port of this machine, for which these seconds are waited. Each connection begins
     * with the token, or with that of MONITOR_TOKEN if it is empty. */
    static Recorder to_port(const std::string &process, std::uint16_t port, double seconds = 10,
                            const std::string &token = {})
    {
        return made(process, [&](monitor_recorder **to) {
            check_text(token, MONITOR_TOKEN);
            return monitor_to_port_with(process.c_str(), port, seconds, token.c_str(), to);
        });
    }

    /* Records to the folder, port or socket that MONITOR_TO names. */
    static Recorder from_environment(const std::string &process, int options = 0, const Note &note = {})
    {
        return made(process, [&](monitor_recorder **to) {
            monitor_status status = monitor_from_environment_with_at(note.said(), process.c_str(), options, to);
            const char *place = status == MONITOR_SYSTEM ? std::getenv("MONITOR_TO") : nullptr;
            if (place != nullptr)
                throw std::system_error(errno, std::generic_category(), std::string("MONITOR_TO is ") + place);
            return status;
        });
    }

    /* Records to what is open for writing, which is closed with the recorder if this succeeds. The options are
     * MONITOR_LONG or none. */
    static Recorder to_descriptor(const std::string &process, int descriptor, int options = 0)
    {
        return made(process, [&](monitor_recorder **to) {
            return monitor_to_descriptor_with(process.c_str(), descriptor, options, to);
        });
    }

    Recorder(Recorder &&other) noexcept
        : handle_(std::exchange(other.handle_, nullptr)), family_(std::move(other.family_)),
          is_strand_(other.is_strand_), begun_(other.begun_)
    {
    }

    Recorder &operator=(Recorder &&other) noexcept
    {
        if (this != &other) {
            close();
            handle_ = std::exchange(other.handle_, nullptr);
            family_ = std::move(other.family_);
            is_strand_ = other.is_strand_;
            begun_ = other.begun_;
        }
        return *this;
    }

    Recorder(const Recorder &) = delete;
    Recorder &operator=(const Recorder &) = delete;

    ~Recorder() { close(); }

    /* Something happened in this process. */
    void event(const Settings &settings = {}, const Note &note = {})
    {
        check(monitor_event_at(note.said(), use(), settings.data(), settings.size()));
    }

    /* This process sends a message: BEFORE it leaves. The id that is made has to travel with it. */
    std::string send(const Settings &settings = {}, const Note &note = {})
    {
        char id[MONITOR_ID_ROOM];
        check(monitor_send_at(note.said(), use(), id, settings.data(), settings.size()));
        return id;
    }

    /* The same, with an id that no other send of the session has. */
    void send_as(const std::string &id, const Settings &settings = {}, const Note &note = {})
    {
        check_text(id, MONITOR_ID);
        check(monitor_send_as_at(note.said(), use(), id.c_str(), settings.data(), settings.size()));
    }

    /* A message has come, with this id: AFTER that. */
    void receive(const std::string &id, const Settings &settings = {}, const Note &note = {})
    {
        check_text(id, MONITOR_ID);
        check(monitor_receive_at(note.said(), use(), id.c_str(), settings.data(), settings.size()));
    }

    /* Begins a strand, for a thread that waits by itself: where the thread is started. */
    Recorder strand(const std::string &name, const Note &note = {})
    {
        check_text(name, MONITOR_PROCESS_NAME);
        monitor_recorder *begun = nullptr;
        check(monitor_strand_at(note.said(), use(), name.c_str(), &begun));
        return Recorder(begun, family_, true, note.place());
    }

    /* This process has waited for a strand, which has ended: AFTER that. */
    void join(const Recorder &strand, const Settings &settings = {}, const Note &note = {})
    {
        monitor_recorder *mine = use();
        if (!strand.is_there())
            throw NotRecorded(MONITOR_NOT_ENDED);
        check(monitor_join_at(note.said(), mine, strand.handle_, settings.data(), settings.size()));
    }

    /* How many events are recorded. */
    std::size_t events() const { return monitor_events(use()); }

    /* Keep other threads from recording, so that an event and its line stay together, by a std::lock_guard. */
    void lock() { monitor_lock(use()); }
    void unlock() { monitor_unlock(use()); }

    /* Nothing more happens in this process: writes the end line, also of its strands that have not ended. They are gone
     * with it, as their memory is, and can't be joined any more. A strand only ends. */
    void end(const Note &note = {})
    {
        if (handle_ != nullptr)
            check(finish([&](monitor_recorder *recorder) { return monitor_close_at(note.said(), recorder); }));
    }

    /* The same without end lines, as the destructor does. A strand ends by it too, and the note of that has the place
     * at which it was begun. */
    void close() noexcept
    {
        finish([&](monitor_recorder *recorder) {
            monitor_abandon_at(begun_.said(), recorder);
            return MONITOR_RECORDED;
        });
    }

private:
    /* What a process and its strands share: the memory of all is freed with the process. */
    struct Family {
        std::mutex ending;
        std::atomic<bool> is_gone{false};
    };

    Recorder(monitor_recorder *handle, std::shared_ptr<Family> family, bool is_strand, const Note &begun = {}) noexcept
        : handle_(handle), family_(std::move(family)), is_strand_(is_strand), begun_(begun)
    {
    }

    friend class Mutex;

    template <typename Make> static Recorder made(const std::string &process, Make make)
    {
        check_text(process, MONITOR_PROCESS_NAME);
        auto family = std::make_shared<Family>();
        monitor_recorder *handle = nullptr;
        check(make(&handle));
        return Recorder(handle, std::move(family), false);
    }

    /* A text with a NUL is none in C, which would take its beginning. */
    static void check_text(const std::string &text, monitor_status status)
    {
        if (text.find('\0') != std::string::npos)
            throw NotRecorded(status);
    }

    static void check(monitor_status status)
    {
        if (status == MONITOR_SYSTEM)
            throw std::system_error(errno, std::generic_category(), monitor_text(status));
        if (status != MONITOR_RECORDED)
            throw NotRecorded(status);
    }

    bool is_there() const noexcept { return handle_ != nullptr && !family_->is_gone; }

    monitor_recorder *use() const
    {
        if (!is_there())
            throw NotRecorded(MONITOR_ENDED);
        return handle_;
    }

    /* Ends this recorder, unless it is gone. A strand is kept, since it may be joined. */
    template <typename Finish> monitor_status finish(Finish by)
    {
        if (handle_ == nullptr)
            return MONITOR_RECORDED;
        std::lock_guard<std::mutex> alone(family_->ending);
        if (family_->is_gone)
            return MONITOR_RECORDED;
        family_->is_gone = !is_strand_;
        return by(handle_);
    }

    monitor_recorder *handle_;
    std::shared_ptr<Family> family_;
    bool is_strand_;
    Note begun_;
};

/* A lock between threads, whose release is a message to whoever locks it next, as monitor_mutex is. */
class Mutex {
public:
    Mutex() { Recorder::check(monitor_mutex_init(&mutex_)); }
    ~Mutex() { monitor_mutex_destroy(&mutex_); }
    Mutex(const Mutex &) = delete;
    Mutex &operator=(const Mutex &) = delete;

    /* Waits until it is free, holds it, and records the receipt. What throws doesn't hold it. */
    void lock(Recorder &recorder, const Note &note = {})
    {
        Recorder::check(monitor_mutex_lock_at(note.said(), &mutex_, recorder.use()));
    }

    /* The same, or false if it isn't free. */
    bool try_lock(Recorder &recorder, const Note &note = {})
    {
        monitor_status status = monitor_mutex_trylock_at(note.said(), &mutex_, recorder.use());
        if (status == MONITOR_SYSTEM && errno == EBUSY)
            return false;
        Recorder::check(status);
        return true;
    }

    /* Records the send, and releases it, whatever becomes of the send: if it is refused, so are later calls of the
     * recorder. */
    void unlock(Recorder &recorder, const Note &note = {}) noexcept
    {
        monitor_mutex_unlock_at(note.said(), &mutex_, recorder.is_there() ? recorder.handle_ : nullptr);
    }

private:
    monitor_mutex mutex_;
};

/* A mutex as one recorder locks it, for std::lock_guard and the like, in the thread of that recorder:
 *
 *     monitor::Lockable mine(mutex, worker);
 *     std::lock_guard<monitor::Lockable> held(mine);
 *
 * The notes of its events have the place at which this is made. */
class Lockable {
public:
    Lockable(Mutex &mutex, Recorder &recorder, const Note &note = {}) noexcept
        : mutex_(mutex), recorder_(recorder), note_(note.place())
    {
    }

    void lock() { mutex_.lock(recorder_, note_); }
    bool try_lock() { return mutex_.try_lock(recorder_, note_); }
    void unlock() noexcept { mutex_.unlock(recorder_, note_); }

private:
    Mutex &mutex_;
    Recorder &recorder_;
    Note note_;
};

} // namespace monitor

#endif
