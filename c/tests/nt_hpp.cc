/* nt.hpp: what each call answers, row by row; the answers are those of docs/WIN32.md, as in core.c. */
#include "../nt.hpp"
#include "check.h"

#include <cstring>
#include <type_traits>

static const nt::thread FIRST{ 0 }, SECOND{ 1 };

static_assert(!std::is_copy_constructible<nt::dispatcher>::value, "a dispatcher has one owner");
static_assert(std::is_nothrow_move_constructible<nt::dispatcher>::value, "and can be handed on");
static_assert(!std::is_convertible<nt::thread, nt::handle>::value, "a thread is no handle");
static_assert(!std::is_convertible<std::uint32_t, nt::handle>::value, "nor is a number");
static_assert(!std::is_convertible<nt::handle, nt::event>::value, "nor is each handle an event");

/* A call that is refused with this error. */
#define REFUSED(call, wanted) \
    do { \
        const auto found = call; \
        IS(bool(found), false); \
        IS(found.error().has_value() && *found.error() == nt::error::wanted, true); \
    } while (0)
#define ACCEPTED(call) \
    do { \
        const auto found = call; \
        IS(bool(found), true); \
        IS(found.error().has_value(), false); \
    } while (0)
/* A wait that ends at once with this status, or pends. */
#define ENDS(call, wanted) \
    do { \
        const auto status = (call).value(); \
        IS(status.has_value(), true); \
        IS(status->code(), wanted); \
    } while (0)
#define PENDS(call) IS((call).value().has_value(), false)

static unsigned grants_of(const nt::dispatcher &nt)
{
    unsigned found = 0;
    for (const nt::grant &it : nt.grants())
        found = found * 1000 + 100 * (it.by.number + 1) + it.status.code();
    return found;
}

static void events()
{
    nt::dispatcher nt(2);
    const nt::event event = nt.create_event(FIRST).value();
    IS(event.number, 2);
    PENDS(nt.wait(FIRST, event));
    ACCEPTED(nt.set_event(SECOND, event));
    IS(grants_of(nt), 100);
    ENDS(nt.wait(FIRST, event, 0), NT_WAIT_TIMEOUT);
    const nt::event both = nt.create_event(FIRST, nt::event_flags::manual_reset | nt::event_flags::initial_set).value();
    ENDS(nt.wait(FIRST, both), NT_WAIT_OBJECT_0);
    ENDS(nt.wait(FIRST, both), NT_WAIT_OBJECT_0);
    ACCEPTED(nt.reset_event(FIRST, both));
    ENDS(nt.wait(FIRST, both, 0), NT_WAIT_TIMEOUT);
    ACCEPTED(nt.pulse_event(FIRST, both));
    const nt::handle waits_only = nt.duplicate(FIRST, event, nt::access::synchronize).value();
    REFUSED(nt.set_event(FIRST, waits_only), access_denied);
    const nt::handle sets_only = nt.duplicate(FIRST, event, nt::access::modify_state | nt::access::none).value();
    ACCEPTED(nt.set_event(FIRST, sets_only));
    REFUSED(nt.wait(FIRST, sets_only), access_denied);
    ACCEPTED(nt.close_handle(FIRST, sets_only));
    REFUSED(nt.close_handle(FIRST, sets_only), invalid_handle);
    IS(nt.opened(waits_only).value().object == nt.opened(event).value().object, true);
    IS(nt.object(nt.opened(both).value().object).value().manual, true);
}

static void counts_and_owners()
{
    nt::dispatcher nt(2);
    const nt::semaphore semaphore = nt.create_semaphore(FIRST, 1, 3).value();
    IS(nt.release_semaphore(FIRST, semaphore).value(), 1);
    IS(nt.release_semaphore(FIRST, semaphore, 1).value(), 2);
    REFUSED(nt.release_semaphore(FIRST, semaphore), too_many_posts);
    REFUSED(nt.release_semaphore(FIRST, semaphore, 0), invalid_parameter);
    const nt::mutex mutex = nt.create_mutex(FIRST, nt::mutex_flags::initial_owner).value();
    const nt::mutex other = nt.create_mutex(SECOND, nt::mutex_flags::initial_owner).value();
    REFUSED(nt.release_mutex(SECOND, mutex), not_owner);
    PENDS(nt.wait(SECOND, mutex));
    REFUSED(nt.sleep(SECOND, 0), thread_waiting);
    IS(nt.is_waiting(SECOND).value(), true);
    IS(nt.pending().value(), 1);
    IS(nt.waits_for(SECOND).value().count, 1);
    IS(nt.waited_object(SECOND, 0).value(), nt.opened(mutex).value().object);
    REFUSED(nt.waited_object(SECOND, 1), no_more_items);
    REFUSED(nt.waits_for(FIRST), no_more_items);
    IS(nt.why_they_wait().value().stuck, false);
    PENDS(nt.wait(FIRST, other));
    const nt::why held = nt.why_they_wait().value();
    IS(held.stuck, true);
    IS(held.next.has_value(), false);
    IS(held.knot.size(), 2);
    IS(held.knot[0] == FIRST && held.knot[1] == SECOND, true);
}

static void abandoned()
{
    nt::dispatcher nt(2);
    const nt::mutex mutex = nt.create_mutex(FIRST, nt::mutex_flags::initial_owner).value();
    const nt::event event = nt.create_event(FIRST).value();
    PENDS(nt.wait_any(SECOND, { event, mutex }));
    ACCEPTED(nt.exit(FIRST));
    unsigned many = 0;
    for (const nt::grant &it : nt.grants()) {
        many++;
        IS(it.by == SECOND, true);
        IS(it.status.is_abandoned(), true);
        IS(it.status.index().value(), 1);
        IS(std::strcmp(it.status.name(), "WAIT_ABANDONED_0+1"), 0);
    }
    IS(many, 1);
    REFUSED(nt.sleep(FIRST, 0), thread_ended);
    REFUSED(nt.sleep({ 2 }, 0), unknown_thread);
}

static void several()
{
    nt::dispatcher nt(1);
    const nt::event set = nt.create_event(FIRST, nt::event_flags::initial_set).value(), unset = nt.create_event(FIRST).value();
    ENDS(nt.wait_all(FIRST, { set, unset }, 0), NT_WAIT_TIMEOUT);
    ENDS(nt.wait_any(FIRST, { unset, set }, 0), NT_WAIT_OBJECT_0 + 1);
    REFUSED(nt.wait_any(FIRST, {}), invalid_parameter);
    const std::vector<nt::handle> many(65, set);
    REFUSED(nt.wait_several(FIRST, many.data(), many.size(), false, 0, false), invalid_parameter);
    REFUSED(nt.wait_any(FIRST, { set, set }), invalid_parameter);
    ENDS(nt.swap(FIRST, set, set), NT_WAIT_OBJECT_0);
    PENDS(nt.swap(FIRST, set, unset, nt::infinite, true));
    IS(nt.waits_for(FIRST).value().alertable, true);
}

static void time_and_apcs()
{
    nt::dispatcher nt(2);
    const nt::timer timer = nt.create_timer(FIRST, nt::timer_flags::manual_reset).value();
    ACCEPTED(nt.set_timer_apc(FIRST, timer, -50000, 0, 7, 9));
    IS(nt.due().value(), 50000);
    REFUSED(nt.due(49999), no_more_items);
    PENDS(nt.sleep(FIRST, nt::infinite, true));
    IS(nt.pend(FIRST, true).value().value(), 50000);
    nt::dispatcher quiet(1);
    PENDS(quiet.sleep(FIRST, nt::infinite));
    IS(quiet.pend(FIRST, true).value().has_value(), false);
    REFUSED(nt.pend(SECOND, false), no_more_items);
    ACCEPTED(nt.woke(FIRST));
    ACCEPTED(nt.tick(50000));
    REFUSED(nt.tick(49999), moment_back);
    IS(nt.now().value(), 50000);
    ACCEPTED(nt.tick(50000));
    const auto apc = nt.next_apc(FIRST).value();
    IS(apc.has_value(), true);
    IS(apc->routine, 7);
    IS(apc->argument, 9);
    IS(apc->due.value(), 50000);
    IS(nt.next_apc(FIRST).value().has_value(), false);
    ACCEPTED(nt.queue_apc(SECOND, nt::handle{ 0 }, 1, 2));
    ENDS(nt.sleep(FIRST, 0, true), NT_WAIT_IO_COMPLETION);
    IS(nt.next_apc(FIRST).value()->due.has_value(), false);
    ACCEPTED(nt.set_timer(FIRST, timer, 60000));
    ACCEPTED(nt.cancel_timer(FIRST, timer));
    REFUSED(nt.due(), no_more_items);
    PENDS(nt.sleep(SECOND, 5));
    ACCEPTED(nt.tick(100000));
    bool is_told = false;
    for (const nt::told &it : nt.all_told())
        is_told = it.to == SECOND && it.status.has_value() && it.status->code() == 0;
    IS(is_told, true);
}

static void lives()
{
    REFUSED(nt::dispatcher::open(0), invalid_parameter);
    REFUSED(nt::dispatcher::open(257), invalid_parameter);
    REFUSED(nt::dispatcher::open_lasting(4097), invalid_parameter);
    IS(nt::dispatcher::open(256).value().threads().value(), 256);
    bool is_thrown = false;
    try {
        nt::dispatcher none(0);
    } catch (const nt::refused &it) {
        is_thrown = it.why() == nt::error::invalid_parameter && std::strcmp(it.what(), "ERROR_INVALID_PARAMETER") == 0;
    }
    IS(is_thrown, true);
    nt::dispatcher nt = nt::dispatcher::open_lasting(2).value();
    REFUSED(nt.begin_thread(), no_more_items);
    ACCEPTED(nt.exit(SECOND));
    const nt::handle spare = nt.create_event(FIRST).value();
    ACCEPTED(nt.close_handle(FIRST, spare));
    ACCEPTED(nt.set_aside(SECOND));
    const nt::begun again = nt.begin_thread().value();
    IS(again.thread == SECOND, true);
    IS(again.handle == spare, true);
    const nt::event event = nt.create_event(FIRST).value();
    nt::dispatcher point = nt.copy().value();
    ACCEPTED(nt.set_event(FIRST, event));
    ENDS(point.wait(FIRST, event, 0), NT_WAIT_TIMEOUT);
    nt = std::move(point);
    ENDS(nt.wait(FIRST, event, 0), NT_WAIT_TIMEOUT);
    ACCEPTED(nt.give_again());
    IS(nt.tested().value(), 0);
}

int main()
{
    events();
    counts_and_owners();
    abandoned();
    several();
    time_and_apcs();
    lives();
    return counted();
}
