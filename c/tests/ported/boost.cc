/* What Windows' loader tells Boost, that a thread ends, and here a slot with a callback: each thread sets it that has data of Boost's, for which
 * config/boost/names.h gives the call another name. */
#undef TlsSetValue

namespace boost
{
void on_thread_exit();

void tss_cleanup_implemented()
{
}
}

static void CALLBACK end_thread(PVOID)
{
    boost::on_thread_exit();
}

BOOL boost_set_value(DWORD index, LPVOID value)
{
    static const DWORD slot = FlsAlloc(end_thread);
    FlsSetValue(slot, value);
    return TlsSetValue(index, value);
}
