/* The cases of Poco's tests of threads, but for those that it leaves out itself, since they take long: it runs the one of this number, and writes the
 * names of all where none is given. */
#include <cstdlib>
#include <iostream>
#include <vector>

#include "CppUnit/TestSuite.h"
#include "CppUnit/TextTestResult.h"

#include "NamedEventTest.h"
#include "NamedMutexTest.h"
#include "NotificationQueueTest.h"
#include "PriorityNotificationQueueTest.h"
#include "TaskManagerTest.h"
#include "TaskTest.h"
#include "ThreadingTestSuite.h"
#include "TimedNotificationQueueTest.h"

static void collect(CppUnit::Test *test, std::vector<CppUnit::Test *> &cases)
{
    auto *suite = dynamic_cast<CppUnit::TestSuite *>(test);
    if (suite == nullptr) {
        if (test->getType() != CppUnit::Test::Long)
            cases.push_back(test);
        return;
    }
    for (CppUnit::Test *each : suite->tests())
        collect(each, cases);
}

int main(int count, char **words)
{
    std::vector<CppUnit::Test *> cases;
    collect(ThreadingTestSuite::suite(), cases);
    collect(NotificationQueueTest::suite(), cases);
    collect(PriorityNotificationQueueTest::suite(), cases);
    collect(TimedNotificationQueueTest::suite(), cases);
    collect(TaskTest::suite(), cases);
    collect(TaskManagerTest::suite(), cases);
    collect(NamedEventTest::suite(), cases);
    collect(NamedMutexTest::suite(), cases);
    if (count < 2) {
        for (CppUnit::Test *each : cases)
            std::cout << each->toString() << '\n';
        return 0;
    }
    CppUnit::TextTestResult result(std::cout, "");
    cases[std::strtoul(words[1], nullptr, 10)]->run(&result);
    std::cout << result << std::endl;
    return result.wasSuccessful() ? 0 : 1;
}
