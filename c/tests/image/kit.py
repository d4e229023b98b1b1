#!/usr/bin/env python3
"""kit.py INCLUDE DDK OUT: headers for drivers' binaries, of those of mingw-w64 (DDK is its folder) and, where it has none, of this project's (INCLUDE).

mingw-w64 has the kernel's names and layouts from a source of its own, and no header of the filter manager: fltKernel.h here is this project's, above mingw-w64's types. kit.h has what
mingw-w64 lacks besides. A driver that is compiled with them sees nothing else of this project, and imports what one of the kit imports."""
import pathlib
import re
import shutil
import sys

INCLUDE, DDK, OUT = (pathlib.Path(it) for it in sys.argv[1:])
THEIRS = "\n".join((DDK / it).read_text() for it in ("wdm.h", "ntddk.h", "ntifs.h", "../bcrypt.h"))

# What mingw-w64's headers lack, and drivers of c/samples and c/tests name.
LACKING = """FILE_DISPOSITION_DELETE FILE_DISPOSITION_POSIX_SEMANTICS FILE_DISPOSITION_ON_CLOSE FILE_DISPOSITION_INFORMATION_EX FILE_ID_128 FILE_ID_EXTD_DIR_INFORMATION FILE_ID_INFORMATION
MdlMappingNoExecute POOL_NX_ALLOCATION FSCTL_OFFLOAD_WRITE DrvRtPoolNxOptIn IS_ALIGNED ROUND_TO_SIZE Add2Ptr ExAllocatePoolZero ExInitializeDriverRuntime KEY_NAME_INFORMATION
SECURITY_MAX_SID_SIZE RtlCrc32 EVENT_INFO_CLASS EtwSetInformation PsGetProcessInheritedFromUniqueProcessId CmCallbackGetKeyObjectIDEx CmCallbackReleaseKeyObjectIDEx IO_REPARSE_TAG_CLOUD STATUS_CLOUD_FILE_UNSUCCESSFUL STATUS_CLOUD_FILE_PROVIDER_NOT_RUNNING
RtlUnicodeStringToUTF8String RtlUTF8StringToUnicodeString RtlFreeUTF8String BCRYPT_SHA256_ALG_HANDLE BCRYPT_SHA384_ALG_HANDLE BCRYPT_HMAC_SHA256_ALG_HANDLE""".split()

# Macros of this project's header, which are functions of the filter manager.
FUNCTIONS = """
VOID FltInitializePushLock(PEX_PUSH_LOCK PushLock);
VOID FltDeletePushLock(PEX_PUSH_LOCK PushLock);
VOID FltAcquirePushLockExclusive(PEX_PUSH_LOCK PushLock);
VOID FltAcquirePushLockShared(PEX_PUSH_LOCK PushLock);
VOID FltReleasePushLock(PEX_PUSH_LOCK PushLock);
VOID FltAcquireResourceExclusive(PERESOURCE Resource);
VOID FltAcquireResourceShared(PERESOURCE Resource);
VOID FltReleaseResource(PERESOURCE Resource);
PVOID FltAllocatePoolAlignedWithTag(PFLT_INSTANCE Instance, POOL_TYPE PoolType, SIZE_T NumberOfBytes, ULONG Tag);
VOID FltFreePoolAlignedWithTag(PFLT_INSTANCE Instance, PVOID Buffer, ULONG Tag);
"""
OF_FUNCTIONS = r"#define Flt\w*(?:PushLock|Resource|PoolAlignedWithTag)\w*(?:\(| Flt).*(?:\\\n.*)*\n"

# Words of the kit's compiler: gcc has no blocks for exceptions in C. Those here run as they do where nothing is raised, and `leave` stands in no loop and no switch of its block.
HEAD = """#ifndef KIT_H
#define KIT_H
#include <ntifs.h>
#include <ntddk.h>
#include <sal.h>
#include <driverspecs.h>
#define KZ_BEGIN KZ_EXTERN_C_BEGIN
#define KZ_ASSERT(e, text) C_ASSERT(e)
#ifdef __cplusplus
#define KZ_EXTERN_C_BEGIN extern "C" {
#define KZ_END }
#else
#define KZ_EXTERN_C_BEGIN
#define KZ_END
#endif
#undef UNREFERENCED_PARAMETER
#define UNREFERENCED_PARAMETER(p) ((void)(p))
#ifndef FLTAPI
#define FLTAPI NTAPI
#endif
#ifdef _MSC_EXTENSIONS_SEH
#define try __try
#define except __except
#define finally __finally
#define leave __leave
#elif !defined(__cplusplus)
#define try do
#define except(e) while (0); if (0 && (e))
#define finally while (0);
#define leave break
#define align(bytes) __aligned__(bytes)
#define __pragma(words)
#endif
#define _byteswap_ushort __builtin_bswap16
KZ_BEGIN
int swprintf(wchar_t *to, const wchar_t *format, ...);
"""


def definition(name, text):
    """A name's definition in a header: a macro, a structure, a type, or a function."""
    for pattern in (
        rf"^#define {name}\b(?:.*\\\n)*.*$",
        rf"^typedef (?:struct|union|enum) _{name} \{{.*?^\}} {name}\b.*?;$",
        rf"^typedef (?:struct|union|enum) _{name} \{{[^\n]*\}} {name}\b.*;$",
        rf"^typedef [^{{}}\n]*\b{name}(?:, .*)?;$",
        rf"^(?:NTSTATUS|VOID|PVOID|ULONG|BOOLEAN|HANDLE) {name}\([^;]*;",
    ):
        found = re.search(pattern, text, re.M | re.S if "{{.*?" in pattern or r"\{.*?" in pattern else re.M)
        if found:
            return found.group(0)
    sys.exit(f"kit.py: no header has {name}")


def routines():
    """Routines that aren't modelled: each is a function, and is declared where mingw-w64 doesn't know it."""
    rows = "".join(it.read_text() for it in sorted(INCLUDE.glob("kz*routines.h")))
    theirs = set(re.findall(r"\b(\w+)\s*\(", re.sub(r"^#define (?:.*\\\n)*.*$", "", THEIRS, flags=re.M)))
    for answer, name in re.findall(r"^KZ_ROUTINE\(([^,]+),[^,]+,[^,]+, (\w+)", rows, re.M):
        declared = "" if name in theirs or name.startswith("Flt") else f"{answer} {name}();\n"
        yield f"#undef {name}\n{declared}"


def kit():
    text = "\n".join(it.read_text() for it in sorted(INCLUDE.glob("*.h")))
    return HEAD + "\n".join(definition(it, text) for it in LACKING) + "\n" + "".join(routines()) + "int sprintf_s(char *to, size_t size, const char *format, ...);\nKZ_END\n#endif\n"


def manager():
    text = (INCLUDE / "fltKernel.h").read_text()
    text = re.sub(r"#include <(dontuse|suppress)\.h>\n", "", text).replace("#include <ntifs.h>", "#include <kit.h>")
    text = re.sub(r'#include "\.\./user/(\w+\.h)"\n', r"#include <\1>\n", re.sub(r"#include <kz(?!fltroutines)\w+\.h>\n", "", text))
    text = re.sub(OF_FUNCTIONS, "", text)
    # What mingw-w64 has already is mingw-w64's.
    for kind, tag in re.findall(r"^typedef (struct|union|enum) (\w+) \{", text, re.M):
        if re.search(rf"\b{kind} {tag}\s*\{{", THEIRS):
            text = re.sub(rf"^typedef {kind} {tag} \{{.*?\}} \w+(?:, \*\w+)*;\n", "", text, count=1, flags=re.M | re.S)
    text = re.sub(r"^(?!typedef)[A-Z_0-9]+ \*?(?!Flt)\w+\([^;{}]*\);\n", "", text, flags=re.M)
    end = text.rindex("KZ_END")
    return text[:end] + FUNCTIONS + text[end:]


OUT.mkdir(parents=True, exist_ok=True)
(OUT / "kit.h").write_text(kit())
(OUT / "fltKernel.h").write_text(manager())
for name in ("sal.h", "driverspecs.h", "specstrings.h", "kzfltroutines.h", "kzroutines.h", "kzbcryptroutines.h", "kzwpp.h", "TraceLoggingProvider.h", "../user/fltUserStructures.h"):
    shutil.copy(INCLUDE / name, OUT)
# The kernel's swprintf has no count, as that of mingw-w64 has.
for name in ("dontuse.h", "suppress.h", "swprintf.inl"):
    (OUT / name).write_text("")
# In C++ mingw-w64 has these twice.
(OUT / "wdm.h").write_text(re.sub(r"^(InterlockedBitTestAnd(?:Set|Reset))\($", r"wdm_\1(", (DDK / "wdm.h").read_text(), flags=re.M))
