"""What c/tests/ports builds over this library and runs: programs' threads, and tests of libraries that are of the same kind."""
import collections
import glob
import os
import re
import shutil
import subprocess
import tempfile

# The package, and a call of a workshop and the source's folder: how many passed, why others failed, and why others were left out.
Run = collections.namedtuple("Run", "package call")

SECONDS_EACH = 300


class Workshop:
    """Compiles and runs in a room of its own, which goes with it. The file `headers` has those that stand there below `config` and `stubs`."""

    def __init__(self, top, ported):
        self.top, self.ported = top, ported
        self.library = [f"{top}/c/out/libntwin.a", "-lpthread"]

    def __enter__(self):
        self.room = tempfile.mkdtemp(prefix="ports-")
        with open(f"{self.ported}/headers", encoding="utf-8") as file:
            for header in re.split(r"(?m)^=== ", file.read())[1:]:
                name, _, text = header.partition("\n")
                os.makedirs(os.path.dirname(f"{self.room}/{name}"), exist_ok=True)
                with open(f"{self.room}/{name}", "w", encoding="utf-8") as to:
                    to.write(text)
        return self

    def __exit__(self, *_):
        shutil.rmtree(self.room)

    def flags(self, name, own):
        """A program's own flags, and then those of all: its own headers come first."""
        config = [f"-I{self.room}/{name}", f"-I{self.room}/config/{name}"]
        return ["-D_WIN32", "-w", "-O1", *config, *own.split(), f"-I{self.top}/c/win", f"-I{self.room}/stubs"]

    def make_files(self, name, made, source):
        os.makedirs(f"{self.room}/{name}", exist_ok=True)
        for file, command in made.items():
            with open(f"{self.room}/{name}/{file}", "wb") as to:
                subprocess.run(command, shell=True, cwd=source, stdout=to, stderr=subprocess.DEVNULL, check=False)

    @staticmethod
    def files_of(source, patterns):
        """The files below the source's folder that have one of these patterns."""
        return [os.path.relpath(it, source) for pattern in patterns.split() for it in sorted(glob.glob(f"{source}/{pattern}")) or [f"{source}/{pattern}"]]

    @staticmethod
    def compile(source, file, flags, to):
        compiler = ["g++", "-x", "c++", "-std=c++17"] if re.search(r"\.(cc|cpp|h)$", file) else ["gcc"]
        how = {"stdin": subprocess.DEVNULL, "capture_output": True, "text": True, "errors": "replace"}
        return subprocess.run([*compiler, *flags, "-c", file, "-o", to], cwd=source, env={**os.environ, "LC_ALL": "C.UTF-8"}, check=False, **how)

    def objects(self, name, source, patterns, flags, without=()):
        """Compiles the files, and answers their objects. What does not compile ends the program that is to be run."""
        made = []
        os.makedirs(f"{self.room}/{name}", exist_ok=True)
        for file in self.files_of(source, patterns) if isinstance(patterns, str) else patterns:
            if any(it in file for it in without):
                continue
            made.append(f"{self.room}/{name}/{file.replace('/', '_')}.o")
            said = self.compile(source, file, flags, made[-1])
            if said.returncode:
                raise RuntimeError(f"{file} does not compile: {said.stderr[:300]}")
        return made

    def linked(self, to, objects, spare=False):
        """Links a program; where `spare`, what is not there ends the program that calls it. Answers why it can't be, or None."""
        words = ["g++", "-o", to, *objects, *self.library]
        how = {"stdin": subprocess.DEVNULL, "capture_output": True, "text": True, "errors": "replace", "check": False}
        said = subprocess.run(words, **how)
        lacking = sorted(set(re.findall(r"undefined reference to `(\w+)'", said.stderr)))
        if said.returncode and spare and lacking:
            with open(f"{to}.c", "w", encoding="utf-8") as file:
                file.write("void abort(void);\n" + "".join(f"void {it}(void) {{ abort(); }}\n" for it in lacking))
            subprocess.run(["gcc", "-w", "-c", f"{to}.c", "-o", f"{to}.spare.o"], check=True)
            said = subprocess.run([*words[:3], f"{to}.spare.o", *words[3:]], **how)
        return (f"does not link: {', '.join(lacking[:3])}" if lacking else said.stderr[:200]) if said.returncode else None

    def ran(self, *words):
        """Why a program failed, or None."""
        how = {"cwd": self.room, "stdin": subprocess.DEVNULL, "stdout": subprocess.PIPE, "stderr": subprocess.STDOUT, "check": False}
        try:
            done = subprocess.run(words, timeout=SECONDS_EACH, text=True, errors="replace", **how)
        except subprocess.TimeoutExpired:
            return f"not done after {SECONDS_EACH} s"
        lines = done.stdout.strip().splitlines() or [""]
        told = next((it for it in lines if it.startswith("ntwin: schedule ")), lines[-1])
        return None if done.returncode == 0 else f"status {done.returncode}: {told[:120]}"


def counted(failed_of):
    """How many passed, of each name whether it failed."""
    failed = {name: why for name, why in failed_of.items() if why}
    return len(failed_of) - len(failed), failed


def program_of(name, patterns, own, flags, without=()):
    """A run of one program: these files of the source, and one of ours or of the source's tests."""

    def call(shop, source):
        compiled = shop.flags(name, flags)
        ours = f"{shop.ported}/{own}"
        objects = shop.objects(name, source, patterns, compiled, without)
        objects += shop.objects(name, source, [ours] if os.path.exists(ours) else own, compiled)
        program = f"{shop.room}/{name}.program"
        return *counted({own: shop.linked(program, objects) or shop.ran(program)}), {}

    return call


def programs_of(name, tests, flags, library="", main="", without=(), left_out=None, own=""):
    """A run of many programs, each with a main of its own, or with one that `main` makes of the name of its file; over objects of the library."""

    def call(shop, source):
        compiled = shop.flags(name, flags)
        objects = shop.objects(name, source, library, compiled, without)
        objects += shop.objects(name, source, [f"{shop.ported}/{own}"], compiled) if own else []
        failed, out = {}, dict(left_out or {})
        for file in shop.files_of(source, tests):
            test = os.path.splitext(os.path.basename(file))[0]
            if test not in out:
                failed[test] = one_of(shop, source, file, compiled, objects, main.format(test))
        return *counted(failed), out

    return call


def one_of(shop, source, file, flags, objects, main):
    """Why the program of this file failed, or None."""
    made, program = [f"{shop.room}/test.o"], f"{shop.room}/test"
    said = shop.compile(source, file, flags, made[0])
    if said.returncode:
        return next((it for it in said.stderr.splitlines() if "error" in it), "does not compile")[:160]
    if main:
        with open(f"{shop.room}/main.c", "w", encoding="utf-8") as to:
            to.write(main)
        made += shop.objects("main", shop.room, "main.c", [])
    return shop.linked(program, [*made, *objects], spare=True) or shop.ran(program, *(["test"] if main else []))


def libuv(shop, source):
    """The tests of its threads, each in a process of its own."""
    flags = shop.flags("libuv", "-U__linux__ -D_WIN64 -Iinclude -Isrc -Isrc/win")
    files = shop.files_of(source, " ".join(f"test/test-{it}.c" for it in "barrier condvar mutexes semaphore thread-equal thread".split()))
    objects = shop.objects("libuv", source, "src/win/thread.c src/uv-common.c", flags)
    objects += shop.objects("libuv", source, [*files, f"{shop.ported}/libuv.c"], flags)
    names = []
    for file in files:
        with open(f"{source}/{file}", encoding="utf-8") as text:
            names += re.findall(r"^TEST_IMPL\((\w+)\)", text.read(), re.M)
    with open(f"{shop.room}/main.c", "w", encoding="utf-8") as to:
        to.write('#include <string.h>\n' + "".join(f"int run_test_{it}(void);\n" for it in names) + "int main(int count, char **words)\n{\n")
        to.write("".join(f'    if (count > 1 && strcmp(words[1], "{it}") == 0) return run_test_{it}();\n' for it in names) + "    return 9;\n}\n")
    objects += shop.objects("main", shop.room, "main.c", [])
    program = f"{shop.room}/libuv.program"
    why = shop.linked(program, objects, spare=True)
    out = {"threadpool_multiple_event_loops": "files and networks"}
    return *counted({it: why or shop.ran(program, it) for it in names if it not in out}), out


def x264(shop, source):
    """The encoder over this library's threads writes, with several threads, the bytes that it writes over pthread's. With threads for slices its
    bytes vary over pthread's, too, so it only has to end well. (Only its threads are for Windows.)"""
    wrote = {}
    with open(f"{shop.room}/frames.yuv", "wb") as to:
        for frame in range(60):
            to.write(bytes((x * y // 64 + frame * 5 + (x ^ y)) & 255 for y in range(144) for x in range(176)) + bytes([128]) * (176 * 144 // 2))
    for kind in ("pthread", "win32thread"):
        at = f"{shop.room}/x264-{kind}"
        shutil.copytree(source, at)
        how = {"cwd": at, "stdin": subprocess.DEVNULL, "capture_output": True, "text": True, "errors": "replace", "check": False}
        subprocess.run(["sh", "configure", "--disable-asm", "--bit-depth=8", "--disable-swscale", "--disable-lavf", "--disable-ffms", "--disable-gpac",
                        "--disable-lsmash", "--disable-opencl", "--extra-cflags=-O1 -w " + f"-I{shop.top}/c/win"], **how)  # fmt: skip
        if kind == "win32thread":
            subprocess.run(["sed", "-i", "s/HAVE_POSIXTHREAD 1/HAVE_POSIXTHREAD 0/; s/HAVE_WIN32THREAD 0/HAVE_WIN32THREAD 1/", "config.h"], cwd=at, check=True)
            with open(f"{at}/config.mak", "a", encoding="utf-8") as to:
                to.write(f"LDFLAGSCLI += {' '.join(shop.library)}\n")
        made = subprocess.run(["make", "-j1", "x264"], **how)
        why = None if made.returncode == 0 else f"does not compile: {made.stderr[-300:]}"
        for threads in ("--threads=6", "--threads=4 --sliced-threads"):
            words = [f"{at}/x264", *threads.split(), "--input-res=176x144", "--quiet", "-o", f"{at}/out.264", f"{shop.room}/frames.yuv"]
            failed = why or shop.ran(*words)
            with open(f"{at}/out.264" if not failed else os.devnull, "rb") as out:
                wrote[kind, threads] = failed or out.read()
    failed = {it: wrote["win32thread", it] if isinstance(wrote["win32thread", it], str) else None for _, it in wrote}
    if not failed["--threads=6"] and wrote["win32thread", "--threads=6"] != wrote["pthread", "--threads=6"]:
        failed["--threads=6"] = "other bytes than over pthread's threads"
    return *counted(failed), {}


BOOST = "-D_WIN64 -U__linux__ -U__linux -Ulinux -U__unix__ -U__unix -Uunix -DBOOST_ALL_NO_LIB -DBOOST_USE_WINDOWS_H -DBOOST_THREAD_BUILD_LIB=1"
BOOST_FILES = "libs/thread/src/win32/*.cpp libs/thread/src/future.cpp libs/chrono/src/chrono.cpp libs/system/src/error_code.cpp"
# What a test calls and includes no header for.
BOOST_LACKING = {"test_3837": ["-include", "boost/utility/in_place_factory.hpp"]}
BOOST_LEFT_OUT = {
    **dict.fromkeys("test_5502 test_lock_concept test_once test_shared_mutex test_shared_mutex_part_2".split(), "a long of 32 bits"),
    **dict.fromkeys("test_shared_mutex_timed_locks test_shared_mutex_timed_locks_chrono".split(), "a long of 32 bits"),
    "test_10963": "a race of its own, over pthreads too",
    "test_11611": "more than 65,536 handles",
    "test_13561": "a file that Debian leaves out",
    "test_8455": "blocks, as it says",
    "test_8557": "ends with 1 itself",
    "test_9192": "files",
    "test_9303": "sockets",
    "test_time_jumps": "a clock that is set",
}


def boost(shop, source):
    """The tests of Boost.Thread, over its part for Windows. (Boost.Test, which runs some of them, is compiled for the system as it is.)"""
    includes = [f"-I{it}" for it in shop.files_of(source, "libs/*/include libs/numeric/*/include")]
    flags = shop.flags("boost", f"-include {shop.room}/config/boost/names.h -include iostream {BOOST}")
    flags += includes
    framework = shop.objects("framework", source, "libs/test/src/*.cpp", ["-w", "-O1", *includes], ("/cpp_main", "/test_main"))
    library = shop.objects("boost", source, BOOST_FILES, flags)
    library += shop.objects("boost", source, [f"{shop.ported}/boost.cc"], flags)
    failed = {}
    for file in shop.files_of(source, "libs/thread/test/test_*.cpp"):
        test = os.path.splitext(os.path.basename(file))[0]
        if test not in BOOST_LEFT_OUT:
            with open(f"{source}/{file}", encoding="utf-8", errors="replace") as text:
                uses = re.search(r"(?m)^ *# *include <boost/test/", text.read())
            failed[test] = one_of(shop, source, file, flags + BOOST_LACKING.get(test, []), [*library, *(framework if uses else [])], "")
    return *counted(failed), BOOST_LEFT_OUT


# Each call of the library has another name, since this library calls the system's own.
RENAMES = "grep -ohE '\\b(_*pthread|sem|sched|clock|nanosleep)_?[a-z_]* *[(]' include/*.h | tr -d '( ' | sort -u | sed 's/.*/#define & winpthreads_&/'"
WINPTHREADS_LEFT_OUT = {
    **dict.fromkeys("mutex4 mutex6e mutex6es mutex7 mutex7e mutex7n spin1 spin3".split(), "what its own code contradicts"),
    **dict.fromkeys("cancel3 cancel5 cancel6a".split(), "the registers of a thread that runs"),
    **dict.fromkeys("exception1 exception2 exception3".split(), "another compiler"),
    "cancel9": "sockets",
    "context1": "the registers of a thread that runs",
    "sizes": "what its own code contradicts",
}


def winpthreads(shop, source):
    """Its tests, each a program."""
    source += "/mingw-w64-libraries/winpthreads"
    flags = shop.flags("winpthreads", "-D_WIN64 -D_M_X64 -DWINPTHREAD_STATIC -D__mode_t_defined -U__linux__ -Iinclude -Isrc -Itests_pthread")
    flags += [f"-I{shop.room}/config/winpthreads/src", "-include", f"{shop.room}/config/winpthreads/names.h"]
    shop.make_files("winpthreads", {"renamed.h": RENAMES}, source)
    library = shop.objects("winpthreads", source, ["tests_pthread/benchlib.c", f"{shop.ported}/winpthreads.c", *shop.files_of(source, "src/*.c")], flags)
    failed = {}
    for file in shop.files_of(source, "tests_pthread/*.c"):
        test = os.path.splitext(os.path.basename(file))[0]
        if test not in WINPTHREADS_LEFT_OUT and test not in ("benchlib", "runall"):
            failed[test] = one_of(shop, source, file, flags, library, "")
    return *counted(failed), WINPTHREADS_LEFT_OUT


# (So SDL's calls have their own names, and its memory is the C library's.)
SDL2 = "-D__clang_analyzer__ -DSDL_MAIN_HANDLED -DHAVE_MALLOC -Iinclude -Isrc"
SDL2_FILES = (
    "src/thread/windows/*.c src/thread/generic/SDL_syscond.c src/thread/SDL_thread.c src/atomic/*.c src/timer/windows/SDL_systimer.c "
    "src/timer/SDL_timer.c src/SDL_error.c src/SDL_hints.c src/stdlib/SDL_*.c"
)
# The words that each takes.
SDL2_TESTS = {"testatomic": [], "testsem": ["5"], "testthread": [], "torturethread": []}


def sdl2(shop, source):
    """Its tests of threads, each a program."""
    flags, failed = shop.flags("sdl2", SDL2), {}
    library = shop.objects("sdl2", source, SDL2_FILES, flags) + shop.objects("sdl2", source, [f"{shop.ported}/sdl2.c"], flags)
    for test, words in SDL2_TESTS.items():
        program = f"{shop.room}/{test}"
        made = shop.objects("sdl2", source, [f"test/{test}.c"], flags)
        failed[test] = shop.linked(program, [*made, *library], spare=True) or shop.ran(program, *words)
    return *counted(failed), {"testlock": "an end, which it has by a signal alone"}


ZSTD = "-DZSTD_MULTITHREAD -DZSTD_DISABLE_ASM -Ilib -Ilib/common -Iprograms"
ZSTD_FILES = "lib/common/*.c lib/compress/*.c lib/decompress/*.c"
XZ = (
    "-DHAVE_CONFIG_H -DLZMA_API_STATIC -DTUKLIB_SYMBOL_PREFIX=lzma_ -Isrc/common -Isrc/liblzma -Isrc/liblzma/api -Isrc/liblzma/common "
    "-Isrc/liblzma/check -Isrc/liblzma/lz -Isrc/liblzma/rangecoder -Isrc/liblzma/lzma -Isrc/liblzma/delta -Isrc/liblzma/simple"
)
XZ_FILES = "src/liblzma/*/*.c src/common/tuklib_cpucores.c src/common/tuklib_physmem.c"
# (Its pthread_create has the system's name, which this library calls.)
GIT = "-include process.h -DWIN32 -DNO_UNIX_SOCKETS -Dpthread_create=git_pthread_create -Dpthread_self=git_pthread_self -Icompat/win32 -I."
WINPR = "-D_WIN64 -D_WIN32_WINNT=0x0A00 -U__linux__ -include inttypes.h -Iwinpr/include"
WINPR_MAIN = "int {0}(int, char **);\nint main(int count, char **words) {{ return {0}(count, words); }}\n"
WINPR_LEFT_OUT = {
    "TestThreadCreateProcess": "processes",
    "TestThreadCommandLineToArgv": "command lines",
    "TestGetComputerName": "names of machines",
}
WINPR_TESTS = " ".join(f"winpr/libwinpr/{it}/test/*.c" for it in "synch thread pool interlocked error sysinfo".split())

# (Their frames of tests come by ours: apr.c and glib.c.)
APR = "-DUSE_ATOMICS_GENERIC -Iinclude -Iinclude/arch/win32 -Iinclude/arch/unix -Itest -D__uid_t_defined -D__gid_t_defined -D__iovec_defined"
APR_TESTS = "testatomic testcond testlock testsleep testthread"
APR_FILES = (
    "locks/win32/thread_*.c threadproc/win32/thread.c threadproc/win32/threadpriv.c atomic/win32/*.c memory/unix/apr_pools.c "
    "tables/apr_hash.c tables/apr_tables.c strings/apr_snprintf.c strings/apr_strings.c strings/apr_cpystrn.c test/testutil.c "
) + " ".join(f"test/{it}.c" for it in APR_TESTS.split())


def apr(shop, source):
    """Its tests of threads; each case of one that passes counts."""
    flags, failed = shop.flags("apr", APR), {}
    shop.make_files("apr", {"apr.h": "cat include/apr.hw"}, source)
    objects = shop.objects("apr", source, APR_FILES, flags) + shop.objects("apr", source, [f"{shop.ported}/apr.c"], flags)
    program = f"{shop.room}/apr.program"
    why = shop.linked(program, objects, spare=True)
    for test in APR_TESTS.split():
        with open(f"{source}/test/{test}.c", encoding="utf-8") as text:
            cases = re.findall(r"^ *abts_run_test\(suite, (\w+),", text.read(), re.M)
        test_failed = why or shop.ran(program, "-v", test)
        failed.update({test: test_failed} if test_failed else {f"{test}: {it} {number}": None for number, it in enumerate(cases)})
    return *counted(failed), {}


GLIB = "-DGLIB_COMPILATION -I. -Iglib"
GLIB_PARTS = "thread thread-win32 atomic asyncqueue threadpool queue list slist slice mem timer rand array bitlock refcount"
GLIB_FILES = " ".join(f"glib/g{it}.c" for it in GLIB_PARTS.split()) + " glib/deprecated/gthread-deprecated.c"
GLIB_TESTED = "mutex rec-mutex rwlock cond once onceinit private thread thread-pool thread-deprecated atomic asyncqueue"
GLIB_TESTS = " ".join(f"glib/tests/{it}.c" for it in f"{GLIB_TESTED} bitlock 1bit-mutex slice-concurrent".split())
GLIB_LEFT_OUT = {"thread-pool-slow": "its main loop"}

# (Windows is chosen by _WIN32, but only where the system is not Linux.)
POCO = (
    "-U__linux__ -U__linux -Ulinux -U__gnu_linux__ -U__unix__ -U__unix -Uunix -DPOCO_STATIC -DPOCO_NO_FPENVIRONMENT -DPOCO_INT64_IS_LONG "
    "-DPOCO_LONG_IS_64_BIT -IFoundation/include -ICppUnit/include -IFoundation/testsuite/src"
)
POCO_THREADS = "Thread ThreadLocal ThreadPool ThreadTarget Mutex Event Semaphore RWLock NamedEvent NamedMutex Condition Timer ActiveDispatcher"
POCO_REST = (
    "Ascii AtomicCounter Bugcheck Clock Debugger Error ErrorHandler EventArgs Exception Format Notification NotificationCenter NotificationQueue "
    "NumberFormatter NumberParser NumericString PriorityNotificationQueue Random RefCountedObject Runnable Stopwatch String SynchronizedObject Task "
    "TaskManager TaskNotification TextConverter TextEncoding TextIterator TimedNotificationQueue Timespan Timestamp Unicode UnicodeConverter "
    "UTF16Encoding UTF32Encoding UTF8Encoding UTF8String AbstractObserver MemoryStream Void"
)
POCO_TESTS = (
    "ThreadingTestSuite ThreadTest SemaphoreTest RWLockTest ThreadPoolTest TimerTest ThreadLocalTest ActivityTest ActiveMethodTest "
    "ActiveDispatcherTest ConditionTest NotificationQueueTest PriorityNotificationQueueTest TimedNotificationQueueTest TaskTest TaskManagerTest "
    "NamedEventTest NamedMutexTest"
)
POCO_LEFT_OUT = {
    "ThreadTest.testThreadStackSize": "headers without PTHREAD_STACK_MIN",
    **dict.fromkeys(["RWLockTest.testLock", "RWLockTest.testTryLock"], "minutes, as it says"),
}


def poco(shop, source):
    """The cases of its tests of threads, each in a process of its own."""
    flags = shop.flags("poco", POCO)
    files = [f"Foundation/src/{it}.cpp" for it in f"{POCO_THREADS} {POCO_REST}".split()]
    files += [f"Foundation/testsuite/src/{it}.cpp" for it in POCO_TESTS.split()]
    objects = shop.objects("poco", source, [*files, *shop.files_of(source, "CppUnit/src/*.cpp"), f"{shop.ported}/poco.cc"], flags)
    program = f"{shop.room}/poco.program"
    why = shop.linked(program, [*objects, "-Wl,--no-demangle"], spare=True)
    if why:
        return *counted({"all": why}), {}
    written = subprocess.run([program], stdout=subprocess.PIPE, text=True, check=True).stdout
    names = [".".join(it) for it in re.findall(r"I\d+(\w+?)E+\.(\w+)$", written, re.M)]
    return *counted({it: shop.ran(program, str(number)) for number, it in enumerate(names) if it not in POCO_LEFT_OUT}), POCO_LEFT_OUT


RUNS = {
    "zstd: packs by 4 threads": Run("zstd", program_of("zstd", ZSTD_FILES, "zstd.c", ZSTD)),
    "zstd: its test of pools": Run("zstd", program_of("zstd", ZSTD_FILES + " programs/timefn.c", "tests/poolTests.c", ZSTD)),
    "xz: packs and unpacks by 4 threads": Run("xz-utils", program_of("xz", XZ_FILES, "xz.c", XZ, ("tablegen", "_small", "_x86"))),
    "git: threads take from a queue": Run("git", program_of("git", "compat/win32/pthread.c", "git.c", GIT)),
    "x264: the bytes that pthread's threads make": Run("x264", x264),
    "libuv: its tests of threads": Run("libuv1", libuv),
    "WinPR: its tests": Run(
        "freerdp2",
        programs_of("winpr", WINPR_TESTS, WINPR, "winpr/libwinpr/interlocked/interlocked.c winpr/libwinpr/sysinfo/sysinfo.c", WINPR_MAIN, left_out=WINPR_LEFT_OUT, own="winpr.c"),
    ),
    "SDL2: its tests of threads": Run("libsdl2", sdl2),
    "APR: its tests of threads": Run("apr", apr),
    "GLib: its tests of threads": Run("glib2.0", programs_of("glib", GLIB_TESTS, GLIB, GLIB_FILES, left_out=GLIB_LEFT_OUT, own="glib.c")),
    "Poco: its tests of threads": Run("poco", poco),
    "winpthreads: its tests": Run("mingw-w64", winpthreads),
    "Boost.Thread: its tests": Run("boost1.74", boost),
}
