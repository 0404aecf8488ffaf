/* SPDX-License-Identifier: MIT OR Apache-2.0 */
/* The methods of Dispatcher, each with its page. */
FAST(create_event, "create_event(thread, manual_reset=False, initial_state=False)\n--\n\nCreateEvent: returns the handle of a new event."),
FAST(set_event, "set_event(thread, event)\n--\n\nSetEvent: signals the event, which ends waits."),
FAST(reset_event, "reset_event(thread, event)\n--\n\nResetEvent: the event is not set from now on."),
FAST(pulse_event, "pulse_event(thread, event)\n--\n\nPulseEvent: ends the waits that pend for the event now, and leaves it not set."),
FAST(create_semaphore, "create_semaphore(thread, initial_count, maximum_count)\n--\n\nCreateSemaphore: returns the handle of a new semaphore. Refused with "
                       "87 unless 0 <= initial_count <= maximum_count and maximum_count > 0."),
FAST(release_semaphore, "release_semaphore(thread, semaphore, release_count=1)\n--\n\nReleaseSemaphore: returns the count before. Refused with 87 if "
                        "release_count is not positive, with 298 if the maximum would be passed."),
FAST(create_mutex, "create_mutex(thread, initial_owner=False)\n--\n\nCreateMutex: returns the handle of a new mutex, which the thread owns if initial_owner."),
FAST(release_mutex, "release_mutex(thread, mutex)\n--\n\nReleaseMutex. Refused with 288 if the thread does not own the mutex."),
FAST(create_timer, "create_timer(thread, manual_reset=False)\n--\n\nCreateWaitableTimer: returns the handle of a new timer."),
FAST(set_timer, "set_timer(thread, timer, due_time, period=0)\n--\n\nSetWaitableTimer: due_time is a moment in units of 100 ns, or from now on if it is "
                "negative; period is in ms."),
FAST(set_timer_apc, "set_timer_apc(thread, timer, due_time, period, routine, argument=0)\n--\n\nSetWaitableTimer with a completion routine: the APC is queued "
                    "to the thread whenever the timer expires."),
FAST(cancel_timer, "cancel_timer(thread, timer)\n--\n\nCancelWaitableTimer: the timer does not expire, and its queued APC is withdrawn."),
FAST(queue_user_apc, "queue_user_apc(thread, target, routine, argument=0)\n--\n\nQueueUserAPC: queues an APC to the thread that the handle target names."),
FAST(next_apc, "next_apc(thread)\n--\n\nTakes the thread's oldest APC: returns an Apc, or None. Threads take APCs once a wait ended with Status.IO_COMPLETION."),
FAST(duplicate_handle, "duplicate_handle(thread, handle, access)\n--\n\nDuplicateHandle: returns one more handle, with these rights (Access)."),
FAST(close_handle, "close_handle(thread, handle)\n--\n\nCloseHandle. An object that no handle and no pending wait names ends."),
FAST(exit_thread, "exit_thread(thread)\n--\n\nExitThread: the thread makes no more calls, and its mutexes are abandoned."),
FAST(wait_for_single_object, "wait_for_single_object(thread, handle, timeout=INFINITE, alertable=False)\n--\n\nWaitForSingleObjectEx: returns the Status, or "
                             "None if the wait pends. timeout is in ms."),
FAST(wait_for_multiple_objects, "wait_for_multiple_objects(thread, handles, wait_all=False, timeout=INFINITE, alertable=False)\n--\n\n"
                                "WaitForMultipleObjectsEx, for any of 1 to 64 handles or for all: returns the Status, or None if the wait pends."),
FAST(sleep, "sleep(thread, timeout, alertable=False)\n--\n\nSleepEx: returns the Status, or None while the thread sleeps. timeout is in ms."),
FAST(signal_object_and_wait, "signal_object_and_wait(thread, signal, wait, timeout=INFINITE, alertable=False)\n--\n\nSignalObjectAndWait: returns the Status, or "
                             "None if the wait pends."),
FAST(tick, "tick(moment)\n--\n\nLets the moments up to this one pass, in units of 100 ns: timers expire, and waits time out."),
FAST(due, "due(up_to=MAX_MOMENT)\n--\n\nThe next moment up to up_to at which a timer is due or a wait times out, or None."),
FAST(pend, "pend(thread, watches=False)\n--\n\nFor a driver that blocks its threads: the thread sleeps from now on; returns the moment to which at the longest, or "
           "None. It watches if a timer may end its wait."),
FAST(woke, "woke(thread)\n--\n\nFor a driver that blocks its threads: the thread sleeps no more, though its wait may pend."),
FAST(is_waiting, "is_waiting(thread)\n--\n\nWhether the thread's wait pends."),
FAST(wait_of, "wait_of(thread)\n--\n\nThe thread's PendingWait, or None."),
FAST(opened, "opened(handle)\n--\n\nWhat the handle names: an Opened."),
FAST(object, "object(number)\n--\n\nThe ObjectState of the object with this number."),
FAST(why, "why(over=(), up_to=MAX_MOMENT)\n--\n\nWhy threads wait: a Why. Threads in over make no more calls, and are in each knot."),
FAST(set_aside, "set_aside(thread)\n--\n\nOf a lasting dispatcher: an ended thread that handles still name leaves its place to another. Refused with HANDLE_LIMIT if no object "
                "number is spare; an object that is made and closed leaves one."),
PLAIN("begin", begin, "begin()\n--\n\nOf a lasting dispatcher: a thread begins in the place of one that has ended. Returns a Begun."),
PLAIN("give_again", give_again, "give_again()\n--\n\nFrom now on the dispatcher gives numbers again, as a lasting one does."),
PLAIN("copy", copy, "copy()\n--\n\nAn equal dispatcher, as a point to come back to."),
PLAIN("close", close_dispatcher, "close()\n--\n\nFrees the dispatcher. Any other use of it raises ValueError then."),
PLAIN("__enter__", enter, NULL),
{"__exit__", leave, METH_VARARGS, NULL},
{NULL, NULL, 0, NULL},
