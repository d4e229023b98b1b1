/* The program at portlock's port: it gets a message, sends one of its own, and answers then. `peer circle` has two threads take two critical sections the other way round each, `peer slim` two slim
 * locks, and with `peer shared` one of them only reads under its first. With `peer gone` a thread ends that has a critical section, with `peer abandoned` one that has a mutex, and `peer itself` takes
 * a slim lock that it has. */
#include <windows.h>
#include <fltUser.h>

typedef struct _MESSAGE {
    FILTER_MESSAGE_HEADER Header;
    DWORD Number;
} MESSAGE;

typedef struct _ANSWER {
    FILTER_REPLY_HEADER Header;
    DWORD Number;
} ANSWER;

static CRITICAL_SECTION gFirst, gSecond;
static SRWLOCK gSlim[2];
static HANDLE gMutexes[2];

static DWORD TakeBoth(LPVOID Sections)
{
    CRITICAL_SECTION **sections = Sections;

    EnterCriticalSection(sections[0]);
    EnterCriticalSection(sections[1]);
    LeaveCriticalSection(sections[1]);
    LeaveCriticalSection(sections[0]);
    return 0;
}

static int Circle(void)
{
    CRITICAL_SECTION *one[2] = {&gFirst, &gSecond}, *other[2] = {&gSecond, &gFirst};
    HANDLE thread;

    InitializeCriticalSection(&gFirst);
    InitializeCriticalSection(&gSecond);
    thread = CreateThread(NULL, 0, TakeBoth, other, 0, NULL);
    TakeBoth(one);
    WaitForSingleObject(thread, INFINITE);
    return 0;
}

static DWORD TakeSlim(LPVOID Order)
{
    SRWLOCK *first = &gSlim[Order != NULL], *second = &gSlim[Order == NULL];

    AcquireSRWLockExclusive(first);
    AcquireSRWLockExclusive(second);
    ReleaseSRWLockExclusive(second);
    ReleaseSRWLockExclusive(first);
    return 0;
}

static int Slim(BOOL Shares)
{
    HANDLE thread = CreateThread(NULL, 0, TakeSlim, gSlim, 0, NULL);

    if (Shares) {
        AcquireSRWLockShared(&gSlim[0]);
        AcquireSRWLockExclusive(&gSlim[1]);
        ReleaseSRWLockExclusive(&gSlim[1]);
        ReleaseSRWLockShared(&gSlim[0]);
    } else {
        TakeSlim(NULL);
    }
    WaitForSingleObject(thread, INFINITE);
    return 0;
}

static DWORD Keep(LPVOID Section)
{
    if (Section != NULL) {
        EnterCriticalSection(Section);
    } else {
        WaitForSingleObject(gMutexes[0], INFINITE);
    }
    return 0;
}

static int Itself(void)
{
    AcquireSRWLockExclusive(&gSlim[0]);
    AcquireSRWLockExclusive(&gSlim[0]);
    return 0;
}

static int Gone(void)
{
    InitializeCriticalSection(&gFirst);
    WaitForSingleObject(CreateThread(NULL, 0, Keep, &gFirst, 0, NULL), INFINITE);
    EnterCriticalSection(&gFirst);
    return 0;
}

/* Who waits for an abandoned mutex has it, and is told so; who waits for several may have one of them already. */
static int Abandoned(void)
{
    gMutexes[0] = CreateMutexW(NULL, FALSE, NULL);
    gMutexes[1] = CreateMutexW(NULL, TRUE, NULL);
    WaitForSingleObject(CreateThread(NULL, 0, Keep, NULL, 0, NULL), INFINITE);
    if (WaitForMultipleObjects(2, gMutexes, TRUE, INFINITE) != WAIT_ABANDONED || WaitForSingleObject(gMutexes[0], INFINITE) != WAIT_OBJECT_0) {
        return Itself();
    }
    return 0;
}

int main(int count, char **words)
{
    MESSAGE message;
    ANSWER answer = {.Number = 1};
    DWORD number = 2, bytes;
    HANDLE port;

    if (count > 1 && strcmp(words[1], "circle") == 0) {
        return Circle();
    }
    if (count > 1 && (strcmp(words[1], "slim") == 0 || strcmp(words[1], "shared") == 0)) {
        return Slim(words[1][1] == 'h');
    }
    if (count > 1) {
        return strcmp(words[1], "gone") == 0 ? Gone() : strcmp(words[1], "itself") == 0 ? Itself() : Abandoned();
    }
    if (FAILED(FilterConnectCommunicationPort(L"\\PeerPort", 0, NULL, 0, NULL, &port)) || FAILED(FilterGetMessage(port, &message.Header, sizeof(message), NULL))) {
        return 1;
    }
    FilterSendMessage(port, &number, sizeof(number), NULL, 0, &bytes);
    answer.Header.MessageId = message.Header.MessageId;
    FilterReplyMessage(port, &answer.Header, sizeof(answer));
    return 0;
}
