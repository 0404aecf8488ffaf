/* SPDX-License-Identifier: MIT OR Apache-2.0 */
/* The dispatcher of NT waitable objects for C++17, over nt.h, which it includes: a source includes one of the two. Link with libntwin.
 *
 *     nt::dispatcher nt(2);                                   room for two threads, freed at the end of the scope
 *     const nt::thread first{0}, second{1};
 *     const nt::event event = nt.create_event(first).value();
 *     nt.wait(first, event).value();                          no status: the wait of the first thread pends
 *     nt.set_event(second, event).value();
 *     for (const nt::grant &it : nt.grants())                 the first thread, with status WAIT_OBJECT_0
 *         std::printf("%u: %s\n", it.by.number, it.status.name());
 *
 * A call returns a result: what it answers, or the error for which it was refused; a refused call changed nothing. `value` throws that error, as
 * nt::refused. Only what says so throws or takes memory. nt.h says what each call does, and what a caller has to see to. */
#ifndef NT_HPP
#define NT_HPP

#include "nt_values.hpp"

#include <array>
#include <cstddef>
#include <cstdint>
#include <initializer_list>
#include <memory>
#include <optional>
#include <utility>
#include <vector>

namespace nt {

class dispatcher {
    struct freeing {
        void operator()(nt_in_c *it) const noexcept { nt_free(it); }
    };
    using owned = std::unique_ptr<nt_in_c, freeing>;

    /* What the last call told, one after another: T is made of what `read` finds at each index. */
    template <class T, class Raw, std::uint32_t (*read)(nt_in_c *, std::size_t, Raw *), T (*made)(const Raw &)>
    class list {
    public:
        struct end_of_list {};
        class iterator {
        public:
            explicit iterator(nt_in_c *it) noexcept : of_(it) { look(); }
            T operator*() const noexcept { return made(found_); }
            iterator &operator++() noexcept
            {
                index_++;
                look();
                return *this;
            }
            bool operator!=(end_of_list) const noexcept { return is_there_; }

        private:
            void look() noexcept { is_there_ = read(of_, index_, &found_) == 0; }
            nt_in_c *of_;
            std::size_t index_ = 0;
            bool is_there_ = false;
            Raw found_{};
        };
        explicit list(nt_in_c *it) noexcept : of_(it) {}
        iterator begin() const noexcept { return iterator(of_); }
        end_of_list end() const noexcept { return end_of_list(); }

    private:
        nt_in_c *of_;
    };
    static grant grant_of(const struct nt_grant &it) { return { { it.thread }, nt::status(it.status) }; }
    static told told_of(const struct nt_told &it)
    {
        return { { it.thread }, it.called ? std::nullopt : std::optional<nt::status>(nt::status(it.status)) };
    }

public:
    /* Opens one: throws nt::refused if the number is not 1 to 256, or memory is refused. */
    explicit dispatcher(std::uint32_t threads) : dispatcher(open(threads).value()) {}
    static result<dispatcher> open(std::uint32_t threads) noexcept { return opened(nt_new(threads), threads, NT_MAXIMUM_THREADS); }
    /* The same for up to 4,096 threads, and a dispatcher that gives numbers again. */
    static result<dispatcher> open_lasting(std::uint32_t threads) noexcept
    {
        return opened(nt_new_lasting(threads), threads, NT_MANY_THREADS);
    }
    /* An equal dispatcher, as a point to come back to. */
    result<dispatcher> copy() const noexcept
    {
        owned to(nt_new(1));
        if (!to)
            return nt::error::not_enough_memory;
        nt_close(to.get());
        if (const std::uint32_t refusal = nt_copy(at(), to.get()))
            return nt::error(refusal);
        return dispatcher(std::move(to));
    }

    /* ---- The calls of thread `who`. */
    result<event> create_event(thread who, event_flags flags = event_flags::none) noexcept
    {
        return created<event>(nt_create_event, who, static_cast<std::uint32_t>(flags));
    }
    result<semaphore> create_semaphore(thread who, std::int32_t initial, std::int32_t maximum) noexcept
    {
        return created<semaphore>(nt_create_semaphore, who, initial, maximum);
    }
    result<mutex> create_mutex(thread who, mutex_flags flags = mutex_flags::none) noexcept
    {
        return created<mutex>(nt_create_mutex, who, static_cast<std::uint32_t>(flags));
    }
    result<timer> create_timer(thread who, timer_flags flags = timer_flags::none) noexcept
    {
        return created<timer>(nt_create_timer, who, static_cast<std::uint32_t>(flags));
    }
    result<handle> duplicate(thread who, handle it, access rights) noexcept
    {
        return created<handle>(nt_duplicate, who, it.number, static_cast<std::uint32_t>(rights));
    }
    result<done> close_handle(thread who, handle it) noexcept { return told_nothing(nt_close_handle, who, it.number); }
    result<done> set_event(thread who, handle it) noexcept { return told_nothing(nt_set_event, who, it.number); }
    result<done> reset_event(thread who, handle it) noexcept { return told_nothing(nt_reset_event, who, it.number); }
    result<done> pulse_event(thread who, handle it) noexcept { return told_nothing(nt_pulse_event, who, it.number); }
    result<done> release_mutex(thread who, handle it) noexcept { return told_nothing(nt_release_mutex, who, it.number); }
    /* Answers the count before. */
    result<std::int32_t> release_semaphore(thread who, handle it, std::int32_t count = 1) noexcept
    {
        result<nt_reply> reply = replied(nt_release_semaphore, who, it.number, count);
        return reply ? result<std::int32_t>(reply.value().previous) : result<std::int32_t>(*reply.error());
    }
    /* `due` is a moment, or from now on where it is negative; the period is in milliseconds. */
    result<done> set_timer(thread who, handle it, std::int64_t due, std::int32_t period = 0) noexcept
    {
        return told_nothing(nt_set_timer, who, it.number, due, period);
    }
    result<done> set_timer_apc(thread who, handle it, std::int64_t due, std::int32_t period, std::uint64_t routine, std::uint64_t argument) noexcept
    {
        return told_nothing(nt_set_timer_apc, who, it.number, due, period, routine, argument);
    }
    result<done> cancel_timer(thread who, handle it) noexcept { return told_nothing(nt_cancel_timer, who, it.number); }
    result<done> queue_apc(thread who, handle to, std::uint64_t routine, std::uint64_t argument) noexcept
    {
        return told_nothing(nt_queue_apc, who, to.number, routine, argument);
    }
    /* The caller's oldest APC, if there is one. */
    result<std::optional<apc>> next_apc(thread who) noexcept
    {
        result<nt_reply> reply = replied(nt_next_apc, who);
        if (!reply)
            return *reply.error();
        const nt_reply &it = reply.value();
        if (it.kind != NT_APC)
            return std::optional<apc>();
        return std::optional<apc>(apc{ it.routine, it.arg, it.timed ? std::optional<std::uint64_t>(it.at) : std::nullopt });
    }
    result<done> exit(thread who) noexcept { return told_nothing(nt_exit, who); }

    /* Each wait answers the status with which it ended at once, or none if it pends. */
    using waited = std::optional<nt::status>;
    result<waited> wait(thread who, handle it, std::uint32_t ms = infinite, bool alertable = false) noexcept
    {
        return begun_wait(nt_wait_object, who, it.number, ms, alertable);
    }
    result<waited> wait_any(thread who, std::initializer_list<handle> of, std::uint32_t ms = infinite, bool alertable = false) noexcept
    {
        return wait_several(who, of.begin(), of.size(), false, ms, alertable);
    }
    result<waited> wait_all(thread who, std::initializer_list<handle> of, std::uint32_t ms = infinite, bool alertable = false) noexcept
    {
        return wait_several(who, of.begin(), of.size(), true, ms, alertable);
    }
    result<waited> wait_several(thread who, const handle *of, std::size_t count, bool all, std::uint32_t ms, bool alertable) noexcept
    {
        std::array<std::uint32_t, NT_MAXIMUM_WAIT_OBJECTS> numbers;
        const std::size_t many = count <= numbers.size() ? count : 0;
        for (std::size_t i = 0; i < many; i++)
            numbers[i] = of[i].number;
        return begun_wait(nt_wait_objects, who, numbers.data(), many, all, ms, alertable);
    }
    result<waited> sleep(thread who, std::uint32_t ms, bool alertable = false) noexcept { return begun_wait(nt_sleep, who, ms, alertable); }
    /* SignalObjectAndWait. */
    result<waited> swap(thread who, handle signal, handle it, std::uint32_t ms = infinite, bool alertable = false) noexcept
    {
        return begun_wait(nt_swap, who, signal.number, it.number, ms, alertable);
    }

    /* ---- Threads of a lasting dispatcher. */
    result<begun> begin_thread() noexcept
    {
        result<nt_begun> it = read<nt_begun>(nt_begin);
        return it ? result<begun>(begun{ { it.value().thread }, { it.value().handle } }) : result<begun>(*it.error());
    }
    result<done> set_aside(thread it) noexcept { return answered(nt_set_aside(at(), it.number)); }
    result<done> give_again() noexcept { return answered(nt_give_again(at())); }

    /* ---- Time, and what there is to read. */
    result<done> tick(std::uint64_t moment) noexcept { return answered(nt_tick(at(), moment)); }
    result<std::uint64_t> now() const noexcept { return read<std::uint64_t>(nt_now); }
    /* The next moment at which something is due: refused with no_more_items if there is none. */
    result<std::uint64_t> due(std::uint64_t up_to = greatest_moment) const noexcept
    {
        return read<std::uint64_t>(nt_due, up_to);
    }
    /* What the last call or tick ended, and told: to be read before the next call. */
    list<grant, struct nt_grant, ::nt_grant, grant_of> grants() const noexcept
    {
        return list<grant, struct nt_grant, ::nt_grant, grant_of>(at());
    }
    list<told, struct nt_told, ::nt_told, told_of> all_told() const noexcept { return list<told, struct nt_told, ::nt_told, told_of>(at()); }
    /* The wait of this thread pends, and it sleeps from now on: to which moment at the longest, if there is one. */
    result<std::optional<std::uint64_t>> pend(thread who, bool watches) noexcept
    {
        std::uint64_t moment = 0;
        const std::uint32_t refusal = nt_pend(at(), who.number, watches, &moment);
        bool waits = false;
        if (refusal == NT_ERROR_NO_MORE_ITEMS && nt_is_waiting(at(), who.number, &waits) == 0 && waits)
            return std::optional<std::uint64_t>();
        if (refusal)
            return nt::error(refusal);
        return std::optional<std::uint64_t>(moment);
    }
    result<done> woke(thread who) noexcept { return answered(nt_woke(at(), who.number)); }
    result<std::uint32_t> threads() const noexcept { return read<std::uint32_t>(nt_threads); }
    result<std::size_t> pending() const noexcept { return read<std::size_t>(nt_pending); }
    result<std::uint64_t> tested() const noexcept { return read<std::uint64_t>(nt_tested); }
    result<bool> is_waiting(thread it) const noexcept { return read<bool>(nt_is_waiting, it.number); }
    /* What the pending wait of this thread waits for: refused with no_more_items if none pends. */
    result<nt_pending_wait> waits_for(thread it) const noexcept { return read<nt_pending_wait>(nt_waits_for, it.number); }
    result<std::uint32_t> waited_object(thread it, std::size_t index) const noexcept
    {
        return read<std::uint32_t>(nt_waited_object, it.number, index);
    }
    result<struct nt_opened> opened(handle it) const noexcept { return read<struct nt_opened>(::nt_opened, it.number); }
    result<struct nt_object> object(std::uint32_t number) const noexcept { return read<struct nt_object>(::nt_object, number); }
    /* Why threads wait, where those in `over` make no further call. It takes memory, and may throw std::bad_alloc. */
    result<why> why_they_wait(const std::vector<thread> &over = {}, std::uint64_t up_to = greatest_moment) const
    {
        const std::uint32_t many = threads().value();
        const std::unique_ptr<bool[]> gone(new bool[many]()), knot(new bool[many]());
        for (const thread it : over)
            if (it.number < many)
                gone[it.number] = true;
        struct nt_why found{};
        if (const std::uint32_t refusal = ::nt_why(at(), gone.get(), many, up_to, &found, knot.get(), many))
            return nt::error(refusal);
        why told{ found.stuck, {}, found.due ? std::optional<std::uint64_t>(found.next) : std::nullopt };
        for (std::uint32_t i = 0; i < many; i++)
            if (knot[i])
                told.knot.push_back({ i });
        return told;
    }

private:
    explicit dispatcher(owned it) noexcept : owned_(std::move(it)) {}
    nt_in_c *at() const noexcept { return owned_.get(); }
    static result<dispatcher> opened(nt_in_c *it, std::uint32_t threads, std::uint32_t most) noexcept
    {
        if (it == nullptr)
            return threads == 0 || threads > most ? nt::error::invalid_parameter : nt::error::not_enough_memory;
        return dispatcher(owned(it));
    }
    static result<done> answered(std::uint32_t refusal) noexcept
    {
        return refusal == 0 ? result<done>(done()) : result<done>(nt::error(refusal));
    }
    template <class... Parameters, class... Arguments>
    result<nt_reply> replied(std::uint32_t (*ask)(Parameters...), thread who, Arguments... words) noexcept
    {
        nt_reply reply{};
        if (const std::uint32_t refusal = ask(at(), who.number, words..., &reply))
            return nt::error(refusal);
        return reply;
    }
    template <class Call, class... Arguments>
    result<done> told_nothing(Call ask, thread who, Arguments... words) noexcept
    {
        const result<nt_reply> reply = replied(ask, who, words...);
        return reply ? result<done>(done()) : result<done>(*reply.error());
    }
    template <class Handle, class Call, class... Arguments>
    result<Handle> created(Call ask, thread who, Arguments... words) noexcept
    {
        result<nt_reply> reply = replied(ask, who, words...);
        if (!reply)
            return *reply.error();
        Handle made;
        made.number = reply.value().number;
        return made;
    }
    template <class Call, class... Arguments>
    result<waited> begun_wait(Call ask, thread who, Arguments... words) noexcept
    {
        result<nt_reply> reply = replied(ask, who, words...);
        if (!reply)
            return *reply.error();
        return reply.value().kind == NT_PENDED ? waited() : waited(nt::status(reply.value().number));
    }
    template <class T, class Call, class... Arguments>
    result<T> read(Call ask, Arguments... words) const noexcept
    {
        T found{};
        if (const std::uint32_t refusal = ask(at(), words..., &found))
            return nt::error(refusal);
        return found;
    }
    owned owned_;
};

}

#endif
