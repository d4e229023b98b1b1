/* The headers of a binary: what they say is checked here, so that nobody behind has to. */
#include "image/pe.h"

#include <stdio.h>
#include <string.h>

enum { LARGEST = 256 << 20, NATIVE = 1, WINDOW = 2, CONSOLE = 3, RELOCATIONS_STRIPPED = 1 };

/* ---- What kind of file it is. */
static bool is_machine(unsigned machine, KzRefusal *why)
{
    switch (machine) {
    case IMAGE_FILE_MACHINE_AMD64:
        return true;
    case IMAGE_FILE_MACHINE_I386:
        return kz_refuse(why, "it is for 32-bit x86: build it for x64");
    case IMAGE_FILE_MACHINE_ARM64:
    case 0xa641: /* and what runs on both */
    case 0xa64e:
        return kz_refuse(why, "it is for ARM64: build it for x64");
    case 0x1c0:
    case 0x1c2:
    case 0x1c4:
        return kz_refuse(why, "it is for 32-bit ARM: build it for x64");
    default:
        return kz_refuse(why, "it is for machine 0x%04x: build it for x64", machine);
    }
}

static bool is_native(unsigned subsystem, KzRefusal *why)
{
    if (subsystem == NATIVE)
        return true;
    if (subsystem == WINDOW || subsystem == CONSOLE)
        return kz_refuse(why, "it is a program or a library of user mode (subsystem %u): a driver's subsystem is NATIVE", subsystem);
    return kz_refuse(why, "its subsystem is %u: a driver's is NATIVE", subsystem);
}

static bool has_only_what_drivers_have(const KzHeaders *headers, KzRefusal *why)
{
    if (headers->directories[KZ_MANAGED].Size)
        return kz_refuse(why, "it has managed code (.NET), which no driver has");
    if (headers->directories[KZ_THREAD_LOCAL].Size)
        return kz_refuse(why, "it has thread-local variables, which Windows gives to no driver");
    if (headers->directories[KZ_DELAYED_IMPORTS].Size)
        return kz_refuse(why, "it delays the loading of imports, which Windows does for no driver");
    return true;
}

/* ---- The headers one after the other. Answers where the sections' headers begin, or 0. */
static uint64_t read_signature(KzBytes file, IMAGE_FILE_HEADER *coff, KzRefusal *why)
{
    IMAGE_DOS_HEADER dos;
    ULONG signature;
    if (file.size >= 4 && memcmp(file.start, "\177ELF", 4) == 0)
        return kz_refuse(why, "it is a program of Linux (ELF)");
    if (!kz_copy(file, 0, &dos, sizeof dos) || dos.e_magic != IMAGE_DOS_SIGNATURE)
        return kz_refuse(why, "it is no binary of Windows: it doesn't begin with MZ");
    uint64_t at = (uint32_t)dos.e_lfanew;
    if (!kz_copy(file, at, &signature, sizeof signature) || !kz_copy(file, at + sizeof signature, coff, sizeof *coff))
        return kz_refuse(why, "its header would lie behind its end: it was cut off");
    if (signature != IMAGE_NT_SIGNATURE)
        return kz_refuse(why, "it is a program of DOS: it has no PE header");
    return at + sizeof signature + sizeof *coff;
}

static bool read_optional(KzBytes file, uint64_t at, const IMAGE_FILE_HEADER *coff, IMAGE_OPTIONAL_HEADER64 *to, KzRefusal *why)
{
    size_t least = offsetof(IMAGE_OPTIONAL_HEADER64, DataDirectory), size = coff->SizeOfOptionalHeader;
    memset(to, 0, sizeof *to);
    if (size < least || !kz_copy(file, at, to, size < sizeof *to ? size : sizeof *to))
        return kz_refuse(why, "its optional header of %zu bytes isn't all there, or is too short", size);
    if (to->Magic != IMAGE_NT_OPTIONAL_HDR64_MAGIC)
        return kz_refuse(why, "its optional header is of kind 0x%03x, and not PE32+", to->Magic);
    if (to->NumberOfRvaAndSizes > IMAGE_NUMBEROF_DIRECTORY_ENTRIES)
        to->NumberOfRvaAndSizes = IMAGE_NUMBEROF_DIRECTORY_ENTRIES;
    if (least + to->NumberOfRvaAndSizes * sizeof(IMAGE_DATA_DIRECTORY) > size)
        return kz_refuse(why, "its %u directories aren't all in its optional header", (unsigned)to->NumberOfRvaAndSizes);
    return true;
}

static bool check_sizes(const IMAGE_OPTIONAL_HEADER64 *from, KzHeaders *to, KzRefusal *why)
{
    uint32_t alignment = from->SectionAlignment;
    if (alignment < KZ_PAGE || alignment & (alignment - 1))
        return kz_refuse(why, "its sections lie at multiples of %u: that has to be a power of 2, from 4,096 on", alignment);
    if (from->SizeOfImage < KZ_PAGE || from->SizeOfImage > LARGEST)
        return kz_refuse(why, "its image has %u bytes: at least 4,096 and at most 256 MB can be laid out", (unsigned)from->SizeOfImage);
    to->size = (from->SizeOfImage + KZ_PAGE - 1) & ~(uint32_t)(KZ_PAGE - 1);
    to->linked = from->ImageBase;
    to->entry = from->AddressOfEntryPoint;
    memcpy(to->directories, from->DataDirectory, from->NumberOfRvaAndSizes * sizeof to->directories[0]);
    return true;
}

/* ---- Sections. */
static bool is_packer(const char *name)
{
    static const char *const names[] = {"UPX", ".upx", ".vmp", ".themida", ".aspack", ".adata", ".petite", ".MPRESS", ".enigma", ".nsp"};
    for (size_t at = 0; at < sizeof names / sizeof names[0]; at++)
        if (strncmp(name, names[at], strlen(names[at])) == 0)
            return true;
    return false;
}

static void take_section(const IMAGE_SECTION_HEADER *from, KzSection *to)
{
    *to = (KzSection){.at = from->VirtualAddress,
                      .size = from->Misc.VirtualSize ? from->Misc.VirtualSize : from->SizeOfRawData,
                      .raw = from->PointerToRawData,
                      .is_read = from->Characteristics & IMAGE_SCN_MEM_READ,
                      .is_written = from->Characteristics & IMAGE_SCN_MEM_WRITE,
                      .is_run = from->Characteristics & IMAGE_SCN_MEM_EXECUTE,
                      .is_discarded = from->Characteristics & 0x02000000};
    to->raw_size = from->SizeOfRawData < to->size ? from->SizeOfRawData : to->size;
    for (size_t at = 0; at < sizeof from->Name && from->Name[at]; at++)
        to->name[at] = from->Name[at] > ' ' && from->Name[at] < 127 ? (char)from->Name[at] : '?';
}

/* `end` is where the ones before it end. */
static bool check_section(const KzSection *one, KzBytes file, uint32_t size, uint64_t *end, KzRefusal *why)
{
    if (one->at % KZ_PAGE || one->at < *end || one->at > size || one->size > size - one->at)
        return kz_refuse(why, "its section %s of %u bytes at 0x%x lies over another one, or outside of the image", one->name, one->size, one->at);
    if (one->raw_size && !kz_bytes_at(file, one->raw, one->raw_size))
        return kz_refuse(why, "its section %s would lie behind its end: it was cut off", one->name);
    if (is_packer(one->name))
        return kz_refuse(why, "its section %s is a packer's: give the file that your linker makes", one->name);
    if (one->is_written && one->is_run)
        return kz_refuse(why, "its section %s may be written and run, as that of a packed file", one->name);
    *end = ((uint64_t)one->at + one->size + KZ_PAGE - 1) & ~(uint64_t)(KZ_PAGE - 1);
    return true;
}

static bool read_sections(KzBytes file, uint64_t at, unsigned count, KzHeaders *to, KzRefusal *why)
{
    IMAGE_SECTION_HEADER one;
    uint64_t end = at + count * sizeof one;
    if (count == 0 || count > KZ_SECTIONS || !kz_bytes_at(file, at, count * sizeof one) || end > to->size)
        return kz_refuse(why, "its headers of %u sections aren't all there", count);
    to->headers = (uint32_t)end;
    while (to->sections_count < count) {
        KzSection *section = &to->sections[to->sections_count++];
        kz_copy(file, at, &one, sizeof one);
        at += sizeof one;
        take_section(&one, section);
        if (!check_section(section, file, to->size, &end, why))
            return false;
    }
    return true;
}

const KzSection *kz_section_at(const KzHeaders *headers, uint32_t at)
{
    for (unsigned one = 0; one < headers->sections_count; one++)
        if (at >= headers->sections[one].at && at - headers->sections[one].at < headers->sections[one].size)
            return &headers->sections[one];
    return NULL;
}

static bool check_entry(const KzHeaders *headers, KzRefusal *why)
{
    const KzSection *section = kz_section_at(headers, headers->entry);
    if (!headers->entry)
        return kz_refuse(why, "it has no entry point, as a library of the kernel: a driver's is DriverEntry");
    return (section && section->is_run) || kz_refuse(why, "its entry point 0x%x isn't in its code", headers->entry);
}

KzBytes kz_directory(const KzHeaders *headers, KzBytes image, unsigned which)
{
    const IMAGE_DATA_DIRECTORY *one = &headers->directories[which];
    uint8_t *start = one->VirtualAddress && one->Size ? kz_bytes_at(image, one->VirtualAddress, one->Size) : NULL;
    return (KzBytes){start, start ? one->Size : 0};
}

bool kz_read_headers(KzBytes file, KzHeaders *to, KzRefusal *why)
{
    IMAGE_FILE_HEADER coff;
    IMAGE_OPTIONAL_HEADER64 optional;
    memset(to, 0, sizeof *to);
    uint64_t at = read_signature(file, &coff, why);
    if (!at || !is_machine(coff.Machine, why) || !read_optional(file, at, &coff, &optional, why) || !check_sizes(&optional, to, why))
        return false;
    to->is_fixed = coff.Characteristics & RELOCATIONS_STRIPPED;
    if (!(coff.Characteristics & IMAGE_FILE_EXECUTABLE_IMAGE))
        return kz_refuse(why, "it isn't marked as executable: its linker found mistakes");
    return is_native(optional.Subsystem, why) && has_only_what_drivers_have(to, why) && read_sections(file, at + coff.SizeOfOptionalHeader, coff.NumberOfSections, to, why) && check_entry(to, why);
}
