/* Text: 16-bit letters by the kit's names, output with each conversion, counted strings, the safe calls. Each line says what the kit would. */
#include <fltKernel.h>
#include <ntstrsafe.h>
#include <stdio.h>
#include <wchar.h>

#define SHOW(e) DbgPrint("%s = %d\n", #e, (int)(e))

PFLT_FILTER gFilterHandle;

static VOID Wide(VOID)
{
    WCHAR room[16];
    PWSTR at;

    SHOW(sizeof(WCHAR));
    SHOW(wcslen(L"doc"));
    SHOW(wcscmp(L"ab", L"ac") < 0);
    SHOW(_wcsicmp(L"LETTER", L"letter"));
    SHOW(_wcsnicmp(L"ABc", L"abd", 2));
    wcsncpy(room, L"file", 16);
    wcscat(room, L".txt");
    SHOW(wcscmp(room, L"file.txt"));
    at = wcsrchr(room, L'.');
    SHOW(at - room);
    SHOW(wcsstr(room, L"txt") - room);
    SHOW(swprintf(room, L"%04x-%d", 0xab, 7));
    DbgPrint("%ws\n", room);
    SHOW(_snwprintf(room, 4, L"%s", L"longer"));
    SHOW(wcstoul(L"0x1f", NULL, 0));
}

static VOID Output(VOID)
{
    UNICODE_STRING text = RTL_CONSTANT_STRING(L"counted");
    ANSI_STRING narrow = RTL_CONSTANT_STRING("narrow");

    DbgPrint("|%*d|%-*d|%.*s|%5.2s|\n", 6, 42, 4, 7, 3, "abcdef", "xyz");
    DbgPrint("|%wZ|%12wZ|%.3wZ|%Z|%S|%ls|%ws|%hs|\n", &text, &text, &text, &narrow, L"S", L"ls", L"ws", "hs");
    DbgPrint("|%C|%lc|%c|%I64u|%I64x|%Ix|%lu|%08lx|%hu|%hhx|%+d|%#x|%o|\n", L'C', L'l', 'c', 1ULL << 40, 255ULL, (SIZE_T)254, 7, 0xabc, 65537, 0x1ff, 5, 255,
             8);
    DbgPrint("|%p|%s|%ws|%%|\n", NULL, NULL, NULL);
    KdPrint(("KdPrint with %d\n", 1));
}

static VOID Counted(VOID)
{
    WCHAR room[8] = {L'#', L'#', L'#', L'#', L'#', L'#', L'#', L'#'};
    UNICODE_STRING text = {0, sizeof(room), room};
    UNICODE_STRING other;
    UNICODE_STRING made;
    ANSI_STRING narrow;
    ULONG number;

    RtlInitUnicodeString(&other, L"ab");
    RtlCopyUnicodeString(&text, &other);
    SHOW(text.Length);
    SHOW(room[2]);
    SHOW(RtlAppendUnicodeToString(&text, L"cdef"));
    SHOW(RtlAppendUnicodeToString(&text, L"ghi") == STATUS_BUFFER_TOO_SMALL);
    DbgPrint("%wZ\n", &text);
    RtlInitUnicodeString(&other, L"ABCDEF");
    SHOW(RtlEqualUnicodeString(&text, &other, TRUE));
    SHOW(RtlEqualUnicodeString(&text, &other, FALSE));
    RtlInitUnicodeString(&made, L"abc");
    SHOW(RtlPrefixUnicodeString(&made, &text, FALSE));
    SHOW(RtlUpcaseUnicodeString(&made, &text, TRUE));
    DbgPrint("%wZ\n", &made);
    RtlFreeUnicodeString(&made);
    SHOW(RtlUnicodeStringToAnsiString(&narrow, &text, TRUE));
    DbgPrint("%Z\n", &narrow);
    RtlFreeAnsiString(&narrow);
    RtlInitUnicodeString(&other, L"0x20");
    SHOW(RtlUnicodeStringToInteger(&other, 0, &number) == 0 && number == 32);
    RtlInitUnicodeString(&made, L"*.T?T");
    RtlInitUnicodeString(&other, L"A.TXT");
    SHOW(FsRtlIsNameInExpression(&made, &other, FALSE, NULL));
    SHOW(RtlStringCbPrintfW(room, sizeof(room), L"%d", 1234567) == STATUS_SUCCESS);
    SHOW(RtlStringCbPrintfW(room, sizeof(room), L"%d", 12345678) == STATUS_BUFFER_OVERFLOW);
    DbgPrint("%ws\n", room);
    SHOW(RtlStringCchCatW(room, 8, L"x") == STATUS_BUFFER_OVERFLOW);
}

/* Letters as bytes: a pair, one that is cut off, too little room; and the code page. */
static VOID Encoded(VOID)
{
    static const CHAR bytes[] = "\xe2\x82\xac" "A" "\xf0\x9f\x98\x80" "\xc3";
    WCHAR wide[8];
    UNICODE_STRING text, back;
    UTF8_STRING utf8;
    ANSI_STRING narrow;
    ULONG count = 0;

    SHOW(RtlUTF8ToUnicodeN(wide, sizeof(wide), &count, bytes, sizeof(bytes) - 1) == STATUS_SOME_NOT_MAPPED);
    DbgPrint("%u: %04x %04x %04x %04x %04x\n", count, wide[0], wide[1], wide[2], wide[3], wide[4]);
    SHOW(RtlUTF8ToUnicodeN(wide, 3 * sizeof(WCHAR), &count, bytes, sizeof(bytes) - 1) == STATUS_BUFFER_TOO_SMALL);
    SHOW(count);
    SHOW(RtlUTF8ToUnicodeN(NULL, 0, &count, bytes, 4));
    SHOW(count);
    RtlInitUnicodeString(&text, L"\x20ac\x00e9");
    SHOW(RtlUnicodeStringToUTF8String(&utf8, &text, TRUE));
    DbgPrint("%u: %02x %02x %02x %02x %02x\n", utf8.Length, (UCHAR)utf8.Buffer[0], (UCHAR)utf8.Buffer[1], (UCHAR)utf8.Buffer[2], (UCHAR)utf8.Buffer[3], (UCHAR)utf8.Buffer[4]);
    SHOW(RtlUTF8StringToUnicodeString(&back, &utf8, TRUE));
    SHOW(RtlEqualUnicodeString(&text, &back, FALSE));
    RtlFreeUnicodeString(&back);
    RtlFreeUTF8String(&utf8);
    SHOW(RtlUnicodeStringToAnsiString(&narrow, &text, TRUE));
    DbgPrint("%u: %02x %02x\n", narrow.Length, (UCHAR)narrow.Buffer[0], (UCHAR)narrow.Buffer[1]);
    SHOW(RtlAnsiStringToUnicodeString(&back, &narrow, TRUE));
    SHOW(RtlEqualUnicodeString(&text, &back, FALSE));
    RtlFreeUnicodeString(&back);
    RtlFreeAnsiString(&narrow);
    SHOW(RtlUnicodeToMultiByteN((PCHAR)wide, 1, &count, L"\x0416", sizeof(WCHAR)));
    SHOW(*(PCHAR)wide == '?');
}

/* Structured exceptions: leave comes behind the block, and nothing is caught. */
static int Blocks(int Where)
{
    int passed = 0;

    try {
        passed += 1;
        try {
            if (Where == 1) {
                leave;
            }
            passed += 2;
        } except (EXCEPTION_EXECUTE_HANDLER) {
            passed += GetExceptionCode();
        }
        if (Where == 2) {
            leave;
        }
        passed += 4;
    } finally {
        passed += 8;
    }
    return passed;
}

static NTSTATUS Unload(FLT_FILTER_UNLOAD_FLAGS Flags)
{
    UNREFERENCED_PARAMETER(Flags);
    FltUnregisterFilter(gFilterHandle);
    return STATUS_SUCCESS;
}

CONST FLT_REGISTRATION Registration = {sizeof(FLT_REGISTRATION), FLT_REGISTRATION_VERSION, 0, NULL, NULL, Unload};

NTSTATUS DriverEntry(PDRIVER_OBJECT DriverObject, PUNICODE_STRING RegistryPath)
{
    NTSTATUS status = FltRegisterFilter(DriverObject, &Registration, &gFilterHandle);

    DbgPrint("%wZ, %wZ\n", RegistryPath, &DriverObject->DriverName);
    Wide();
    Output();
    Counted();
    Encoded();
    SHOW(Blocks(0));
    SHOW(Blocks(1));
    SHOW(Blocks(2));
#if defined(_WIN64) && defined(_M_AMD64) && NTDDI_VERSION >= NTDDI_VISTA && FLT_MGR_LONGHORN && DBG
    DbgPrint("x64, checked, of a later day than Vista\n");
#endif
    return NT_SUCCESS(status) ? FltStartFiltering(gFilterHandle) : status;
}
