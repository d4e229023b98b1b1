/* Expressions of names, row by row as the kit's page has them and as Samba's fileserver does, which was compared with Windows; and the case of letters as NTFS has it since Windows 7. */
#include <fltKernel.h>

typedef struct {
    PCWSTR Expression, Name;
    BOOLEAN Matches;
} ROW;

/* Without case. */
static const ROW gLoose[] = {
    {L"*", L"a", TRUE}, {L"*", L"", FALSE}, {L"*", L".", TRUE}, {L"*", L"..", TRUE}, {L"", L"", TRUE}, {L"", L"a", FALSE}, {L"A", L"a", TRUE},
    {L"A", L"A", TRUE}, {L"A", L"a", TRUE}, {L"A", L"b", FALSE}, {L"A", L"aa", FALSE}, {L"AA", L"a", FALSE}, {L"*A", L"a", TRUE}, {L"*A", L"ba", TRUE},
    {L"*A", L"ab", FALSE}, {L"A*", L"a", TRUE}, {L"A*", L"a.b", TRUE}, {L"*.TXT", L"a.txt", TRUE}, {L"*.TXT", L".txt", TRUE}, {L"*.TXT", L"a.txt.txt", TRUE},
    {L"*.TXT", L"a.txtx", FALSE}, {L"*.TXT", L"a.txt", TRUE}, {L"*.*", L"a", FALSE}, {L"*.*", L"a.", TRUE}, {L"*.*", L".a", TRUE}, {L"*.*", L"a.b.c", TRUE},
    {L"A.*", L"a", FALSE}, {L"A.*", L"a.b", TRUE}, {L"A.*", L"a.", TRUE}, {L"**", L"a.b", TRUE}, {L"?", L"a", TRUE}, {L"?", L".", TRUE}, {L"?", L"", FALSE},
    {L"?", L"aa", FALSE}, {L"?\?", L"a", FALSE}, {L"A?", L"a", FALSE}, {L"A?", L"a.", TRUE}, {L"?.?", L"a.b", TRUE}, {L"?.?", L"ab", FALSE},
    {L"?\??", L"a.b", TRUE}, {L"<", L"a", TRUE}, {L"<", L"a.b", FALSE}, {L"<", L"a.", TRUE}, {L"<", L".a", FALSE}, {L"<", L".", TRUE}, {L"<", L"..", TRUE},
    {L"<", L"a.b.c", FALSE}, {L"<", L"a.b.", TRUE}, {L"<B", L"a.b", TRUE}, {L"<B", L"ab", TRUE}, {L"<.B", L"a.b", TRUE}, {L"<.B", L"a.b.b", TRUE},
    {L"<.C", L"a.b.c", TRUE}, {L"<<", L"a.b", TRUE}, {L"<<", L"a.b.c", TRUE}, {L"<<", L"abc", TRUE}, {L"<.<", L"a.b", TRUE}, {L"<.<", L"a", FALSE},
    {L"<.<", L"a.b.c", TRUE}, {L"<.<.<", L"a.b", FALSE}, {L"<.<.<", L"a.b.c", TRUE}, {L"<.", L"a.", TRUE}, {L"<.", L"a", FALSE}, {L"<.", L"a.b", FALSE},
    {L"A<", L"a.b", FALSE}, {L"A<", L"a.", TRUE}, {L"A<", L"ab", TRUE}, {L"A<B", L"a.b", TRUE}, {L"A<B", L"axb", TRUE}, {L"A<B", L"ax.b", TRUE},
    {L"A<<B", L"ax.y.b", TRUE}, {L">", L"a", TRUE}, {L">", L".", TRUE}, {L">", L"", FALSE}, {L">", L"aa", FALSE}, {L">>", L"a", TRUE}, {L">>", L"aa", TRUE},
    {L">>", L"aaa", FALSE}, {L">>", L".", TRUE}, {L">>>", L"a.", TRUE}, {L">>>.B", L"a.b", TRUE}, {L">>>.B", L"abc.b", TRUE}, {L">>>.B", L"abcd.b", FALSE},
    {L"A>", L"a", TRUE}, {L"A>", L"ab", TRUE}, {L"A>", L"a.", TRUE}, {L"A>", L"a.b", FALSE}, {L">A", L"a", FALSE}, {L">A", L".a", FALSE},
    {L">.>", L"a.b", TRUE}, {L">.>", L"a.", TRUE}, {L">.>", L".", TRUE}, {L">.>", L"a", FALSE}, {L"ABC.>>>>", L"abc.txt", TRUE}, {L"ABC.>>>>", L"abc.", TRUE},
    {L"ABC.>>>>", L"abc", FALSE}, {L"ABC\">>>>", L"abc", TRUE}, {L"ABC\">>>>", L"abc.txt", TRUE}, {L"ABC\">>>>", L"abc.html5", FALSE},
    {L">>>>>>>>\">>>", L"a.b", TRUE}, {L">>>>>>>>\">>>", L"abc", TRUE}, {L">>>>>>>>\">>>", L".", TRUE}, {L">>>>>>>>.>>>", L"abc", FALSE}, {L"\"", L".", TRUE},
    {L"\"", L"", FALSE}, {L"\"", L"a", FALSE}, {L"A\"", L"a", TRUE}, {L"A\"", L"a.", TRUE}, {L"A\"", L"a.b", FALSE}, {L"A\"*", L"a", TRUE},
    {L"A\"*", L"a.b", TRUE}, {L"A\"*", L"ab", FALSE}, {L"A\"B", L"a.b", TRUE}, {L"A\"B", L"ab", FALSE}, {L"*\"", L"a", TRUE}, {L"*\"", L"a.", TRUE},
    {L"*\"*", L"a", TRUE}, {L"*\"*", L"a.b", TRUE}, {L"\"\"", L"a", FALSE}, {L"A\"\"", L"a", TRUE}, {L"A\"\"", L"a.", TRUE}, {L"A\"\"", L"a..", TRUE},
    {L"A\"<", L"a", TRUE}, {L"A\"<", L"a.b", TRUE}, {L"<\"", L"a", TRUE}, {L"<\"", L"a.b", FALSE}, {L"<\"*", L"a.b", TRUE}, {L"<\"*", L"a.b.c", TRUE},
};

/* With it. */
static const ROW gExact[] = {
    {L"a", L"A", FALSE}, {L"A", L"A", TRUE}, {L"*.TXT", L"a.txt", FALSE}, {L"*.txt", L"a.txt", TRUE}, {L"a\"*", L"A", FALSE}, {L"<", L"a", TRUE},
};

static PFLT_FILTER gFilter;

/* The same of bytes, which have no call without case. */
static BOOLEAN IsByBytes(_In_ PUNICODE_STRING Expression, _In_ PUNICODE_STRING Name)
{
    CHAR expression[64], name[64];
    ANSI_STRING one, other;
    USHORT at;

    for (at = 0; at < Expression->Length / sizeof(WCHAR); at++) {
        expression[at] = (CHAR)Expression->Buffer[at];
    }
    for (at = 0; at < Name->Length / sizeof(WCHAR); at++) {
        name[at] = (CHAR)Name->Buffer[at];
    }
    one.Buffer = expression;
    one.Length = one.MaximumLength = Expression->Length / sizeof(WCHAR);
    other.Buffer = name;
    other.Length = other.MaximumLength = Name->Length / sizeof(WCHAR);
    return FsRtlIsDbcsInExpression(&one, &other);
}

static VOID Try(_In_ const ROW *Rows, _In_ ULONG Count, _In_ BOOLEAN IgnoreCase)
{
    UNICODE_STRING expression, name;
    ULONG at, differ = 0;

    for (at = 0; at < Count; at++) {
        RtlInitUnicodeString(&expression, Rows[at].Expression);
        RtlInitUnicodeString(&name, Rows[at].Name);
        if (FsRtlIsNameInExpression(&expression, &name, IgnoreCase, NULL) == Rows[at].Matches && (IgnoreCase || IsByBytes(&expression, &name) == Rows[at].Matches)) {
            continue;
        }
        differ++;
        DbgPrint("%wZ of %wZ: not %u\n", &expression, &name, Rows[at].Matches);
    }
    DbgPrint("%u rows, %u differ\n", Count, differ);
}

/* Small letters as they stand in an expression: none of the name's is one, but by the call that makes both capital. */
static VOID Small(VOID)
{
    UNICODE_STRING expression = RTL_CONSTANT_STRING(L"*.txt"), name = RTL_CONSTANT_STRING(L"a.TXT"), wild = RTL_CONSTANT_STRING(L"a\"b");
    ANSI_STRING narrow = RTL_CONSTANT_STRING("a>");

    DbgPrint("small: %u, %u\n", FsRtlIsNameInExpression(&expression, &name, TRUE, NULL), FsRtlIsNameInUnUpcasedExpression(&expression, &name, TRUE, NULL));
    DbgPrint("wild cards: %u, %u, %u\n", FsRtlDoesNameContainWildCards(&name), FsRtlDoesNameContainWildCards(&wild), FsRtlDoesDbcsContainWildCards(&narrow));
}

/* How many letters have another capital one, and whether each comes back; and some by themselves: of Romanian, of Croatian, a sigma at the end of a word, two of Greek and of Cyrillic. */
static VOID Letters(VOID)
{
    static const WCHAR some[] = {0x0219, 0x01c6, 0x03c2, 0x1f71, 0x048b, 0x0180, 0x2c65, 0x24d0, 0x00df, 0x0131};
    ULONG letter, changed = 0, back = 0, at;
    WCHAR capital;

    for (letter = 0; letter < 0x10000; letter++) {
        capital = RtlUpcaseUnicodeChar((WCHAR)letter);
        changed += capital != letter;
        back += capital != letter && RtlDowncaseUnicodeChar(capital) == letter;
    }
    DbgPrint("%u letters, %u come back\n", changed, back);
    for (at = 0; at < RTL_NUMBER_OF(some); at++) {
        DbgPrint("%04x %04x\n", some[at], RtlUpcaseUnicodeChar(some[at]));
    }
}

static NTSTATUS FLTAPI Unload(_In_ FLT_FILTER_UNLOAD_FLAGS Flags)
{
    UNREFERENCED_PARAMETER(Flags);

    FltUnregisterFilter(gFilter);
    return STATUS_SUCCESS;
}

static const FLT_OPERATION_REGISTRATION Callbacks[] = {{IRP_MJ_OPERATION_END}};

static const FLT_REGISTRATION FilterRegistration = {
    .Size = sizeof(FLT_REGISTRATION),
    .Version = FLT_REGISTRATION_VERSION,
    .OperationRegistration = Callbacks,
    .FilterUnloadCallback = Unload,
};

NTSTATUS DriverEntry(_In_ PDRIVER_OBJECT DriverObject, _In_ PUNICODE_STRING RegistryPath)
{
    NTSTATUS status;

    UNREFERENCED_PARAMETER(RegistryPath);

    Try(gLoose, RTL_NUMBER_OF(gLoose), TRUE);
    Try(gExact, RTL_NUMBER_OF(gExact), FALSE);
    Small();
    Letters();
    status = FltRegisterFilter(DriverObject, &FilterRegistration, &gFilter);
    if (!NT_SUCCESS(status)) {
        return status;
    }
    status = FltStartFiltering(gFilter);
    if (!NT_SUCCESS(status)) {
        FltUnregisterFilter(gFilter);
    }
    return status;
}
