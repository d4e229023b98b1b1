/* A driver in C++: a class for each stream's context, memory by an operator new of its own, virtual calls, a template, a lambda, an object that ends with its block. */
#include <fltKernel.h>

namespace
{
constexpr ULONG tag = 'salC';
PFLT_FILTER filter;
}

void *operator new(size_t size) noexcept
{
    return ExAllocatePoolWithTag(NonPagedPool, size, tag);
}
void *operator new(size_t, void *where) noexcept
{
    return where;
}
void operator delete(void *memory) noexcept
{
    if (memory)
        ExFreePoolWithTag(memory, tag);
}
void operator delete(void *memory, size_t) noexcept
{
    operator delete(memory);
}

namespace
{
class Total
{
  public:
    virtual ~Total() = default;
    virtual void add(ULONG bytes) = 0;
    virtual LONG value() const = 0;
};

class Written final : public Total
{
  public:
    ~Written() override { DbgPrint("classes: %d bytes written\n", bytes); }
    void add(ULONG more) override { InterlockedExchangeAdd(&bytes, static_cast<LONG>(more)); }
    LONG value() const override { return bytes; }

  private:
    LONG bytes = 0;
};

struct Stream {
    Total *total = new Written;
    ~Stream() { delete total; }
};

/* A context of the callback's file, released at the block's end. */
template <typename Context> class Found
{
  public:
    explicit Found(PCFLT_RELATED_OBJECTS objects)
    {
        if (!NT_SUCCESS(FltGetStreamContext(objects->Instance, objects->FileObject, &found)))
            found = nullptr;
    }
    ~Found()
    {
        if (found)
            FltReleaseContext(found);
    }
    Found(const Found &) = delete;
    Found &operator=(const Found &) = delete;
    Context *operator->() const { return static_cast<Context *>(found); }
    explicit operator bool() const { return found != nullptr; }

  private:
    PFLT_CONTEXT found = nullptr;
};

VOID cleanup(PFLT_CONTEXT context, FLT_CONTEXT_TYPE)
{
    static_cast<Stream *>(context)->~Stream();
}

FLT_POSTOP_CALLBACK_STATUS created(PFLT_CALLBACK_DATA data, PCFLT_RELATED_OBJECTS objects, PVOID, FLT_POST_OPERATION_FLAGS flags)
{
    PFLT_CONTEXT made;
    if (FlagOn(flags, FLTFL_POST_OPERATION_DRAINING) || !NT_SUCCESS(data->IoStatus.Status))
        return FLT_POSTOP_FINISHED_PROCESSING;
    if (NT_SUCCESS(FltAllocateContext(filter, FLT_STREAM_CONTEXT, sizeof(Stream), NonPagedPool, &made))) {
        new (made) Stream;
        FltSetStreamContext(objects->Instance, objects->FileObject, FLT_SET_CONTEXT_KEEP_IF_EXISTS, made, nullptr);
        FltReleaseContext(made);
    }
    return FLT_POSTOP_FINISHED_PROCESSING;
}

FLT_PREOP_CALLBACK_STATUS writes(PFLT_CALLBACK_DATA data, PCFLT_RELATED_OBJECTS objects, PVOID *)
{
    auto add = [&](auto &stream) { stream->total->add(data->Iopb->Parameters.Write.Length); };
    if (Found<Stream> stream{objects})
        add(stream);
    return FLT_PREOP_SUCCESS_NO_CALLBACK;
}

NTSTATUS unload(FLT_FILTER_UNLOAD_FLAGS)
{
    FltUnregisterFilter(filter);
    return STATUS_SUCCESS;
}

const FLT_CONTEXT_REGISTRATION contexts[] = {{FLT_STREAM_CONTEXT, 0, cleanup, sizeof(Stream), tag}, {FLT_CONTEXT_END}};
const FLT_OPERATION_REGISTRATION operations[] = {{IRP_MJ_CREATE, 0, nullptr, created}, {IRP_MJ_WRITE, 0, writes, nullptr}, {IRP_MJ_OPERATION_END}};
const FLT_REGISTRATION registration = {sizeof(registration), FLT_REGISTRATION_VERSION, 0, contexts, operations, unload};
}

extern "C" NTSTATUS DriverEntry(PDRIVER_OBJECT object, PUNICODE_STRING)
{
    NTSTATUS status = FltRegisterFilter(object, &registration, &filter);
    return NT_SUCCESS(status) ? FltStartFiltering(filter) : status;
}
