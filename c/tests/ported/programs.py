"""Programs with a part of threads for Windows, from Debian's sources: what of it c/tests/ports compiles."""
import collections

# The package; its files, of which a pattern may stand for several; flags beside those of all, with folders of the source; whether it needs a file
# made: its name and the command that writes it, in the source's folder.
Program = collections.namedtuple("Program", "package files flags made", defaults=("", {}))

XZ = "api common check lz rangecoder lzma delta simple"
RTCD = "perl build/make/rtcd.pl --arch=generic --sym={} --config=/dev/null {}"

PROGRAMS = {
    "zstd": Program("zstd", "lib/common/threading.c lib/common/pool.c lib/compress/zstdmt_compress.c programs/timefn.c", "-DZSTD_MULTITHREAD"),
    "xz": Program(
        "xz-utils",
        "src/liblzma/common/stream_*_mt.c src/liblzma/common/outqueue.c src/common/tuklib_cpucores.c src/common/tuklib_physmem.c",
        "-DHAVE_CONFIG_H -DTUKLIB_SYMBOL_PREFIX=lzma_ -Isrc/common -Isrc/liblzma " + " ".join(f"-Isrc/liblzma/{it}" for it in XZ.split()),
    ),
    "x264": Program("x264", "common/win32thread.c common/threadpool.c common/cpu.c encoder/lookahead.c", "-I."),
    "git": Program("git", "compat/win32/pthread.c thread-utils.c", "-include process.h -DWIN32 -DNO_UNIX_SOCKETS -Icompat/win32 -I."),
    "dav1d": Program("dav1d", "src/win32/thread.c src/thread_task.c src/cpu.c src/lib.c", "-std=c99 -I. -Iinclude -Iinclude/dav1d -Isrc"),
    "libvpx": Program(
        "libvpx",
        "vpx_util/vpx_thread.c vp8/common/generic/systemdependent.c vp8/*/*thread*.c vp9/*/*thread*.c",
        "-I. -Ivp8",
        {
            "vp8_rtcd.h": RTCD.format("vp8_rtcd", "vp8/common/rtcd_defs.pl"),
            "vp9_rtcd.h": RTCD.format("vp9_rtcd", "vp9/common/vp9_rtcd_defs.pl"),
            "vpx_dsp_rtcd.h": RTCD.format("vpx_dsp_rtcd", "vpx_dsp/vpx_dsp_rtcd_defs.pl"),
            "vpx_scale_rtcd.h": RTCD.format("vpx_scale_rtcd", "vpx_scale/vpx_scale_rtcd.pl"),
        },
    ),
    "aom": Program("aom", "aom_util/aom_thread.c", "-I."),
    "x265": Program(
        "x265",
        "source/common/thread*.cpp source/common/winxp.cpp source/common/wavefront.cpp source/encoder/frameencoder.cpp",
        "-Isource -Isource/common -Isource/encoder -DX265_NS=x265 -DHIGH_BIT_DEPTH=0 -DX265_DEPTH=8 -DX86_64=1",
    ),
    "svt-av1": Program(
        "svt-av1",
        "Source/Lib/Common/Codec/EbThreads.c Source/Lib/Common/Codec/EbSystemResourceManager.c Source/Lib/Common/Codec/EbMalloc.c",
        "-ISource/API -ISource/Lib/Common/Codec -ISource/Lib/Common/C_DEFAULT",
    ),
    "ffmpeg": Program("ffmpeg", "libavutil/slicethread.c libavutil/cpu.c libavutil/threadmessage.c libavutil/time.c libavcodec/pthread*.c", "-I."),
    "mpv": Program("mpv", "osdep/win32/pthread.c", "-Iosdep/win32/include -I."),
    "libwebp": Program("libwebp", "src/utils/thread_utils.c src/dsp/cpu.c", "-DWEBP_USE_THREAD -I."),
    "libde265": Program("libde265", "libde265/threads.cc extra/win32cond.c", "-I. -Ilibde265 -Iextra"),
    "sdl2": Program(
        "libsdl2",
        "src/thread/windows/*.c src/thread/SDL_thread.c src/atomic/*.c src/timer/windows/SDL_systimer.c src/timer/SDL_timer.c",
        "-Iinclude -Isrc",
    ),
    "openssl": Program("openssl", "crypto/threads_win.c crypto/initthread.c", "-DOPENSSL_THREADS -Iinclude -Iproviders/common/include -I."),
    "curl": Program("curl", "lib/curl_threads.c lib/timeval.c", "-D_WIN64 -D_SSIZE_T_DEFINED -Iinclude -Ilib"),
    "libevent": Program("libevent", "evthread_win32.c evthread.c evutil_time.c", "-I. -Iinclude -Icompat"),
    "sqlite3": Program(
        "sqlite3",
        "src/mutex_w32.c src/threads.c src/vdbesort.c",
        "-Isrc",
        {"sqlite3.h": "sed -e s/--VERS--/3.40.1/ -e s/--VERSION-NUMBER--/3040001/ -e s/--SOURCE-ID--/Debian/ src/sqlite.h.in"},
    ),
    "rocksdb": Program("rocksdb", "port/win/win_thread.cc port/win/port_win.cc", "-I. -Iinclude"),
    "7zip": Program("7zip", "C/Threads.c C/MtCoder.c C/MtDec.c C/LzFindMt.c", "-IC"),
    "libuv": Program("libuv1", "src/win/thread.c src/threadpool.c", "-D_WIN64 -Iinclude -Isrc -Isrc/win"),
    "libusb": Program("libusb-1.0", "libusb/os/threads_windows.c libusb/os/events_windows.c", "-Ilibusb -Ilibusb/os"),
    "apr": Program(
        "apr",
        "locks/win32/thread_*.c threadproc/win32/thread.c threadproc/win32/threadpriv.c atomic/win32/*.c time/win32/time.c",
        "-Iinclude -Iinclude/arch/win32 -Iinclude/arch/unix -D__uid_t_defined -D__gid_t_defined -D__iovec_defined",
        {"apr.h": "cat include/apr.hw"},
    ),
    "tcl": Program("tcl8.6", "win/tclWinThrd.c win/tclWinTime.c", "-D_WIN64 -Igeneric -Iwin"),
    "luajit": Program("luajit", "src/lj_profile.c", "-Isrc"),
    "abseil": Program(
        "abseil",
        "absl/synchronization/internal/*waiter.cc absl/synchronization/internal/create_thread_identity.cc absl/synchronization/mutex.cc "
        "absl/synchronization/internal/per_thread_sem.cc absl/base/internal/spinlock.cc absl/base/internal/spinlock_wait.cc absl/time/clock.cc",
        "-U__linux__ -I.",
    ),
    # (Fibers are not here. Its build may choose threads in their place.)
    "onetbb": Program(
        "onetbb",
        "src/tbb/semaphore.cpp src/tbb/private_server.cpp src/tbb/concurrent_monitor.h src/tbb/address_waiter.cpp src/tbb/rtm_mutex.cpp",
        "-D__TBB_RESUMABLE_TASKS_USE_THREADS=1 -Iinclude -Isrc",
    ),
    "mimalloc": Program("mimalloc", "test/test-stress.c src/init.c", "-Iinclude"),
    "gperftools": Program("google-perftools", "src/windows/port.cc src/base/spinlock.cc src/base/spinlock_internal.cc", "-Isrc -Isrc/windows"),
    "googletest": Program("googletest", "googletest/src/gtest-port.cc", "-include names.h -Igoogletest -Igoogletest/include"),
    "glib": Program("glib2.0", "glib/gthread-win32.c glib/gthread.c", "-DGLIB_COMPILATION -I. -Iglib"),
    "poco": Program(
        "poco",
        " ".join(f"Foundation/src/{it}.cpp" for it in "Thread ThreadPool Mutex Event Semaphore RWLock NamedEvent NamedMutex Condition Timer".split()),
        "-U__linux__ -U__linux -Ulinux -U__unix__ -U__unix -Uunix -DPOCO_STATIC -DPOCO_NO_FPENVIRONMENT -DPOCO_INT64_IS_LONG -DPOCO_LONG_IS_64_BIT "
        "-IFoundation/include",
    ),
    "libgc": Program("libgc", "win32_threads.c", "-Iinclude -Iinclude/private -DGC_THREADS -DGC_BUILTIN_ATOMIC"),
}
