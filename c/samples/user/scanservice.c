/* The service of the scanner: its threads take what the filter sends from a completion port, and answer whether a foul word is in it. */
#include <windows.h>
#include <fltUser.h>

#include "../contentscan.h"

#define MOST_THREADS 4

typedef struct _SCAN_MESSAGE {
    FILTER_MESSAGE_HEADER Header;
    CONTENTSCAN_REQUEST Request;
    OVERLAPPED Overlapped;
} SCAN_MESSAGE, *PSCAN_MESSAGE;

typedef struct _SCAN_REPLY {
    FILTER_REPLY_HEADER Header;
    CONTENTSCAN_VERDICT Verdict;
} SCAN_REPLY, *PSCAN_REPLY;

typedef struct _SCAN_CONTEXT {
    HANDLE Port;
    HANDLE Completion;
} SCAN_CONTEXT, *PSCAN_CONTEXT;

static BOOL IsClean(const CONTENTSCAN_REQUEST *Request)
{
    static const UCHAR foul[] = {'f', 'o', 'u', 'l'};
    ULONG length = Request->Length;

    for (ULONG at = 0; at + sizeof(foul) <= length; at++) {
        if (memcmp(Request->Content + at, foul, sizeof(foul)) == 0) {
            return FALSE;
        }
    }
    return TRUE;
}

static HRESULT Ask(PSCAN_CONTEXT Context, PSCAN_MESSAGE Message)
{
    HRESULT answer;

    memset(&Message->Overlapped, 0, sizeof(OVERLAPPED));
    answer = FilterGetMessage(Context->Port, &Message->Header, FIELD_OFFSET(SCAN_MESSAGE, Overlapped), &Message->Overlapped);
    return answer == HRESULT_FROM_WIN32(ERROR_IO_PENDING) ? S_OK : answer;
}

/* A reply is as long as its parts: the structure has more behind them. */
static HRESULT Answer(PSCAN_CONTEXT Context, PSCAN_MESSAGE Message)
{
    SCAN_REPLY reply;

    memset(&reply, 0, sizeof(reply));
    reply.Header.Status = 0;
    reply.Header.MessageId = Message->Header.MessageId;
    reply.Verdict.IsClean = IsClean(&Message->Request);
    return FilterReplyMessage(Context->Port, &reply.Header, sizeof(reply.Header) + sizeof(reply.Verdict));
}

static DWORD Work(LPVOID Parameter)
{
    PSCAN_CONTEXT context = Parameter;
    LPOVERLAPPED overlapped;
    PSCAN_MESSAGE message;
    ULONG_PTR key;
    DWORD bytes;
    HRESULT answer = S_OK;

    while (SUCCEEDED(answer)) {
        if (!GetQueuedCompletionStatus(context->Completion, &bytes, &key, &overlapped, INFINITE)) {
            return HRESULT_FROM_WIN32(GetLastError()); /* the filter is gone */
        }
        message = CONTAINING_RECORD(overlapped, SCAN_MESSAGE, Overlapped);
        answer = Answer(context, message);
        if (answer == ERROR_FLT_NO_WAITER_FOR_REPLY) {
            printf("scanservice: too late\n");
        } else if (FAILED(answer)) {
            break;
        }
        answer = Ask(context, message);
    }
    return answer;
}

int main(int argc, char **argv)
{
    SCAN_CONTEXT context;
    SCAN_MESSAGE *messages;
    HANDLE threads[MOST_THREADS];
    DWORD count = argc > 1 ? (DWORD)atoi(argv[1]) : 2, id;
    HRESULT answer = FilterConnectCommunicationPort(CONTENTSCAN_PORT, 0, NULL, 0, NULL, &context.Port);

    if (FAILED(answer) || count < 1 || count > MOST_THREADS) {
        printf("scanservice: not connected, 0x%08x\n", answer);
        return 1;
    }
    context.Completion = CreateIoCompletionPort(context.Port, NULL, 0, count);
    messages = calloc(count, sizeof(SCAN_MESSAGE));
    for (DWORD at = 0; at < count; at++) {
        Ask(&context, &messages[at]);
        threads[at] = CreateThread(NULL, 0, Work, &context, 0, &id);
    }
    WaitForMultipleObjects(count, threads, TRUE, INFINITE);
    printf("scanservice: the filter is gone\n");
    for (DWORD at = 0; at < count; at++) {
        CloseHandle(threads[at]);
    }
    CloseHandle(context.Port);
    CloseHandle(context.Completion);
    free(messages);
    return 0;
}
