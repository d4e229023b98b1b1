/* A program in transactions: what it writes is there once that is committed, and isn't where it is rolled back or its handle is closed. */
#include <windows.h>
#include <ktmw32.h>
#include <stdio.h>

static HANDLE Open(LPCWSTR Name, DWORD Access, DWORD Disposition, HANDLE Transaction)
{
    DWORD share = FILE_SHARE_READ | FILE_SHARE_WRITE | FILE_SHARE_DELETE;
    return Transaction != NULL ? CreateFileTransactedW(Name, Access, share, NULL, Disposition, 0, NULL, Transaction, NULL, NULL) : CreateFileW(Name, Access, share, NULL, Disposition, 0, NULL);
}

static void Say(LPCSTR What, LPCWSTR Name)
{
    CHAR room[16];
    DWORD count = 0;
    HANDLE file = Open(Name, GENERIC_READ, OPEN_EXISTING, NULL);
    if (file == INVALID_HANDLE_VALUE) {
        printf("%s: error %lu\n", What, GetLastError());
        return;
    }
    ReadFile(file, room, sizeof room, &count, NULL);
    printf("%s: %.*s\n", What, (int)count, room);
    CloseHandle(file);
}

static HANDLE Write(LPCSTR Text, LPCWSTR Name)
{
    DWORD count;
    HANDLE transaction = CreateTransaction(NULL, NULL, 0, 0, 0, 0, NULL);
    HANDLE file = Open(Name, GENERIC_READ | GENERIC_WRITE, OPEN_ALWAYS, transaction);
    WriteFile(file, Text, (DWORD)strlen(Text), &count, NULL);
    CloseHandle(file);
    return transaction;
}

int main(void)
{
    HANDLE transaction = Write("first", L"C:\\kept"), other;
    Say("before the commit", L"C:\\kept");
    printf("commit: %d\n", CommitTransaction(transaction));
    Say("committed", L"C:\\kept");
    BOOL isCommitted = CommitTransaction(transaction);
    printf("once more: %d, error %lu\n", isCommitted, GetLastError());
    CloseHandle(transaction);
    transaction = Write("SECOND", L"C:\\kept");
    other = CreateTransaction(NULL, NULL, 0, 0, 0, 0, NULL);
    HANDLE file = Open(L"C:\\kept", GENERIC_WRITE, OPEN_EXISTING, other);
    printf("another writer: %s, error %lu\n", file == INVALID_HANDLE_VALUE ? "refused" : "opened", GetLastError());
    printf("rollback: %d\n", RollbackTransaction(transaction));
    Say("rolled back", L"C:\\kept");
    CloseHandle(transaction);
    CloseHandle(other);
    CloseHandle(Write("third", L"C:\\kept"));
    Say("closed", L"C:\\kept");
    transaction = CreateTransaction(NULL, NULL, 0, 0, 0, 0, NULL);
    printf("delete: %d\n", DeleteFileTransactedW(L"C:\\kept", transaction));
    Say("deleted, not committed", L"C:\\kept");
    printf("rollback: %d\n", RollbackTransaction(transaction));
    Say("rolled back", L"C:\\kept");
    CloseHandle(transaction);
    transaction = CreateTransaction(NULL, NULL, 0, 0, 0, 0, NULL);
    printf("delete: %d\n", DeleteFileTransactedA("C:\\kept", transaction));
    printf("commit: %d\n", CommitTransaction(transaction));
    Say("committed", L"C:\\kept");
    BOOL isDeleted = DeleteFileTransactedW(L"C:\\kept", NULL);
    printf("in none: %d, error %lu\n", isDeleted, GetLastError());
    CloseHandle(transaction);
    return 0;
}
