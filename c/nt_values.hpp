/* SPDX-License-Identifier: MIT OR Apache-2.0 */
/* What nt.hpp is asked with, and answers: errors, results, handles, statuses and flags. nt.hpp includes it. */
#ifndef NT_VALUES_HPP
#define NT_VALUES_HPP

#ifdef NT_H
#error "nt.hpp includes nt.h, whose struct has the name of this namespace: include nt.hpp alone"
#endif
/* (Some functions there have the name of the struct that they fill.) */
#pragma GCC diagnostic push
#pragma GCC diagnostic ignored "-Wshadow"
#define nt nt_in_c
#include "nt.h"
#undef nt
#pragma GCC diagnostic pop

#include <cstddef>
#include <cstdint>
#include <optional>
#include <stdexcept>
#include <utility>
#include <variant>
#include <vector>

namespace nt {

enum class error : std::uint32_t {
    access_denied = NT_ERROR_ACCESS_DENIED,
    invalid_handle = NT_ERROR_INVALID_HANDLE,
    not_enough_memory = NT_ERROR_NOT_ENOUGH_MEMORY,
    gen_failure = NT_ERROR_GEN_FAILURE,
    invalid_parameter = NT_ERROR_INVALID_PARAMETER,
    no_more_items = NT_ERROR_NO_MORE_ITEMS,
    not_owner = NT_ERROR_NOT_OWNER,
    too_many_posts = NT_ERROR_TOO_MANY_POSTS,
    thread_waiting = NT_ERROR_THREAD_WAITING,
    thread_ended = NT_ERROR_THREAD_ENDED,
    unknown_thread = NT_ERROR_UNKNOWN_THREAD,
    recursion_limit = NT_ERROR_RECURSION_LIMIT,
    moment_back = NT_ERROR_MOMENT_BACK,
    handle_limit = NT_ERROR_HANDLE_LIMIT
};

/* The error's name, as "ERROR_NOT_OWNER". */
inline const char *name(error it) noexcept
{
    const char *const found = nt_error_name(static_cast<std::uint32_t>(it));
    return found == nullptr ? "an error without a name" : found;
}

/* What result::value throws. */
class refused : public std::runtime_error {
public:
    explicit refused(error it) : std::runtime_error(name(it)), why_(it) {}
    error why() const noexcept { return why_; }

private:
    error why_;
};

/* Nothing, as the answer of a call that tells nothing. */
struct done {};

/* What a call answers, or why it was refused. */
template <class T>
class [[nodiscard]] result {
public:
    result(T it) noexcept : held_(std::in_place_index<0>, std::move(it)) {}
    result(nt::error it) noexcept : held_(std::in_place_index<1>, it) {}
    explicit operator bool() const noexcept { return held_.index() == 0; }
    /* The answer: throws nt::refused if there is none. */
    T &value() &
    {
        throw_error();
        return *std::get_if<0>(&held_);
    }
    T value() &&
    {
        throw_error();
        return std::move(*std::get_if<0>(&held_));
    }
    /* The error: none if the call was accepted. */
    std::optional<nt::error> error() const noexcept
    {
        const nt::error *const found = std::get_if<1>(&held_);
        return found == nullptr ? std::nullopt : std::optional<nt::error>(*found);
    }

private:
    void throw_error() const
    {
        if (const nt::error *const found = std::get_if<1>(&held_))
            throw refused(*found);
    }
    std::variant<T, nt::error> held_;
};

/* A thread, by its number. */
struct thread {
    std::uint32_t number;
};

/* Any handle, and those of which it is known what they name. They are numbers of guests: letting one go closes nothing. */
struct handle {
    std::uint32_t number;
};
struct event : handle {};
struct semaphore : handle {};
struct mutex : handle {};
struct timer : handle {};

inline constexpr bool operator==(thread a, thread b) noexcept { return a.number == b.number; }
inline constexpr bool operator!=(thread a, thread b) noexcept { return a.number != b.number; }
inline constexpr bool operator==(handle a, handle b) noexcept { return a.number == b.number; }
inline constexpr bool operator!=(handle a, handle b) noexcept { return a.number != b.number; }

/* How a wait ended. */
class status {
public:
    explicit constexpr status(std::uint32_t code) noexcept : code_(code) {}
    constexpr std::uint32_t code() const noexcept { return code_; }
    /* The place of the object that was taken among the wait's handles, if one was. */
    constexpr std::optional<std::size_t> index() const noexcept
    {
        const std::uint32_t at = code_ & ~NT_WAIT_ABANDONED_0;
        return at < NT_MAXIMUM_WAIT_OBJECTS ? std::optional<std::size_t>(at) : std::nullopt;
    }
    constexpr bool is_abandoned() const noexcept { return index().has_value() && code_ >= NT_WAIT_ABANDONED_0; }
    constexpr bool is_timeout() const noexcept { return code_ == NT_WAIT_TIMEOUT; }
    constexpr bool is_alerted() const noexcept { return code_ == NT_WAIT_IO_COMPLETION; }
    /* Its name, as "WAIT_OBJECT_0+1". */
    const char *name() const noexcept
    {
        const char *const found = nt_status_name(code_);
        return found == nullptr ? "a status without a name" : found;
    }

private:
    std::uint32_t code_;
};

/* A pending wait that the last call or tick ended. */
struct grant {
    thread by;
    nt::status status;
};

/* Whom the last call or tick told something: its wait ended with a status, or it is to look at the time if there is none. */
struct told {
    thread to;
    std::optional<nt::status> status;
};

/* An APC that was taken; `due` if a timer queued it. */
struct apc {
    std::uint64_t routine, argument;
    std::optional<std::uint64_t> due;
};

/* A thread that began, and its own handle. */
struct begun {
    nt::thread thread;
    nt::handle handle;
};

/* Whether nothing can end the waits there are, who holds each other, and when something is due next. */
struct why {
    bool stuck;
    std::vector<thread> knot;
    std::optional<std::uint64_t> next;
};

enum class event_flags : std::uint32_t { none = 0, manual_reset = NT_EVENT_MANUAL_RESET, initial_set = NT_EVENT_INITIAL_SET };
inline constexpr event_flags operator|(event_flags a, event_flags b) noexcept
{
    return static_cast<event_flags>(static_cast<std::uint32_t>(a) | static_cast<std::uint32_t>(b));
}
enum class mutex_flags : std::uint32_t { none = 0, initial_owner = NT_MUTEX_INITIAL_OWNER };
enum class timer_flags : std::uint32_t { none = 0, manual_reset = NT_TIMER_MANUAL_RESET };
enum class access : std::uint32_t { none = 0, synchronize = NT_SYNCHRONIZE, modify_state = NT_MODIFY_STATE, set_context = NT_SET_CONTEXT };
inline constexpr access operator|(access a, access b) noexcept
{
    return static_cast<access>(static_cast<std::uint32_t>(a) | static_cast<std::uint32_t>(b));
}

/* Milliseconds of a wait: `infinite` never end. Moments are units of 100 ns since the dispatcher was opened. */
inline constexpr std::uint32_t infinite = NT_INFINITE;
inline constexpr std::uint64_t greatest_moment = NT_GREATEST_MOMENT;

}

#endif
