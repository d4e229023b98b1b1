/* Routines of the filter manager that are declared and aren't modelled, as kzroutines.h has those of the kernel. fltKernel.h declares them by this table, and the host makes their bodies by it. */

KZ_ROUTINE(NTSTATUS, STATUS_NOT_SUPPORTED, REDIRECTED, FltIsIoRedirectionAllowed, PFLT_INSTANCE SourceInstance, PFLT_INSTANCE TargetInstance, PBOOLEAN RedirectionAllowed)
KZ_ROUTINE(NTSTATUS, STATUS_NOT_SUPPORTED, REDIRECTED, FltIsIoRedirectionAllowedForOperation, PFLT_CALLBACK_DATA Data, PFLT_INSTANCE TargetInstance, PBOOLEAN RedirectionAllowedThisIo,
           PBOOLEAN RedirectionAllowedAllIo)
KZ_ROUTINE(NTSTATUS, STATUS_NOT_SUPPORTED, REDIRECTED, FltAdjustDeviceStackSizeForIoRedirection, PFLT_INSTANCE SourceInstance, PFLT_INSTANCE TargetInstance, PBOOLEAN SourceDeviceStackSizeModified)
KZ_ROUTINE(NTSTATUS, STATUS_NOT_SUPPORTED, NOT_MODELLED, FltPropagateActivityIdToThread, PFLT_CALLBACK_DATA CallbackData, LPGUID PropagateId, LPGUID *OriginalId)
KZ_ROUTINE(NTSTATUS, STATUS_NOT_SUPPORTED, NOT_MODELLED, FltPropagateIrpExtension, PFLT_CALLBACK_DATA SourceData, PFLT_CALLBACK_DATA TargetData, ULONG Flags)
KZ_ROUTINE(PVOID, NULL, NOT_MODELLED, FltGetIoAttributionHandleFromCallbackData, PFLT_CALLBACK_DATA Data)
KZ_ROUTINE(NTSTATUS, STATUS_NOT_SUPPORTED, NOT_MODELLED, FltApplyPriorityInfoThread, PVOID InputPriorityInfo, PVOID OutputPriorityInfo, PETHREAD Thread)
KZ_ROUTINE(BOOLEAN, FALSE, NOT_MODELLED, FltGetCallerIsReadOnlyExtension, PFLT_CALLBACK_DATA Data)

/* ---- Lists of what is there. */
KZ_ROUTINE(NTSTATUS, STATUS_NOT_SUPPORTED, ATTACH, FltEnumerateInstancesByDeviceObject, PDEVICE_OBJECT DeviceObject, PFLT_INSTANCE *InstanceList, ULONG InstanceListSize, PULONG NumberInstancesReturned)
KZ_ROUTINE(NTSTATUS, STATUS_NOT_SUPPORTED, ATTACH, FltEnumerateInstanceInformationByDeviceObject, PDEVICE_OBJECT DeviceObject, ULONG Index, INSTANCE_INFORMATION_CLASS InformationClass, PVOID Buffer,
           ULONG BufferSize, PULONG BytesReturned)

/* ---- A filter's own input and output. */
KZ_ROUTINE(NTSTATUS, STATUS_NOT_SUPPORTED, OWN_IO, FltCreateNamedPipeFile, PFLT_FILTER Filter, PFLT_INSTANCE Instance, PHANDLE FileHandle, PFILE_OBJECT *FileObject, ULONG DesiredAccess,
           POBJECT_ATTRIBUTES ObjectAttributes, PIO_STATUS_BLOCK IoStatusBlock, ULONG ShareAccess, ULONG CreateDisposition, ULONG CreateOptions, ULONG NamedPipeType, ULONG ReadMode,
           ULONG CompletionMode, ULONG MaximumInstances, ULONG InboundQuota, ULONG OutboundQuota, PLARGE_INTEGER DefaultTimeout, PIO_DRIVER_CREATE_CONTEXT DriverContext)
KZ_ROUTINE(NTSTATUS, STATUS_NOT_SUPPORTED, OWN_IO, FltCreateMailslotFile, PFLT_FILTER Filter, PFLT_INSTANCE Instance, PHANDLE FileHandle, PFILE_OBJECT *FileObject, ULONG DesiredAccess,
           POBJECT_ATTRIBUTES ObjectAttributes, PIO_STATUS_BLOCK IoStatusBlock, ULONG CreateOptions, ULONG MailslotQuota, ULONG MaximumMessageSize, PLARGE_INTEGER ReadTimeout,
           PIO_DRIVER_CREATE_CONTEXT DriverContext)
KZ_ROUTINE(NTSTATUS, STATUS_NOT_SUPPORTED, OWN_IO, FltReadFileEx, PFLT_INSTANCE InitiatingInstance, PFILE_OBJECT FileObject, PLARGE_INTEGER ByteOffset, ULONG Length, PVOID Buffer,
           FLT_IO_OPERATION_FLAGS Flags, PULONG BytesRead, PFLT_COMPLETED_ASYNC_IO_CALLBACK CallbackRoutine, PVOID CallbackContext, PULONG Key, PMDL Mdl)
KZ_ROUTINE(NTSTATUS, STATUS_NOT_SUPPORTED, OWN_IO, FltWriteFileEx, PFLT_INSTANCE InitiatingInstance, PFILE_OBJECT FileObject, PLARGE_INTEGER ByteOffset, ULONG Length, PVOID Buffer,
           FLT_IO_OPERATION_FLAGS Flags, PULONG BytesWritten, PFLT_COMPLETED_ASYNC_IO_CALLBACK CallbackRoutine, PVOID CallbackContext, PULONG Key, PMDL Mdl)
KZ_ROUTINE(NTSTATUS, STATUS_NOT_SUPPORTED, OWN_IO, FltFastIoMdlRead, PFLT_INSTANCE InitiatingInstance, PFILE_OBJECT FileObject, PLARGE_INTEGER FileOffset, ULONG Length, ULONG LockKey, PMDL *MdlChain,
           PIO_STATUS_BLOCK IoStatus)
KZ_ROUTINE(NTSTATUS, STATUS_NOT_SUPPORTED, OWN_IO, FltFastIoMdlReadComplete, PFLT_INSTANCE InitiatingInstance, PFILE_OBJECT FileObject, PMDL MdlChain)
KZ_ROUTINE(NTSTATUS, STATUS_NOT_SUPPORTED, OWN_IO, FltFastIoPrepareMdlWrite, PFLT_INSTANCE InitiatingInstance, PFILE_OBJECT FileObject, PLARGE_INTEGER FileOffset, ULONG Length, ULONG LockKey,
           PMDL *MdlChain, PIO_STATUS_BLOCK IoStatus)
KZ_ROUTINE(NTSTATUS, STATUS_NOT_SUPPORTED, OWN_IO, FltFastIoMdlWriteComplete, PFLT_INSTANCE InitiatingInstance, PFILE_OBJECT FileObject, PLARGE_INTEGER FileOffset, PMDL MdlChain)
KZ_ROUTINE(NTSTATUS, STATUS_NOT_SUPPORTED, OWN_IO, FltQueryInformationByName, PFLT_FILTER Filter, PFLT_INSTANCE Instance, POBJECT_ATTRIBUTES ObjectAttributes, PIO_STATUS_BLOCK IoStatusBlock,
           PVOID FileInformation, ULONG Length, FILE_INFORMATION_CLASS FileInformationClass, PIO_DRIVER_CREATE_CONTEXT DriverContext)
KZ_ROUTINE(NTSTATUS, STATUS_NOT_SUPPORTED, OWN_IO, FltQueryQuotaInformationFile, PFLT_INSTANCE Instance, PFILE_OBJECT FileObject, PIO_STATUS_BLOCK IoStatusBlock, PVOID Buffer, ULONG Length,
           BOOLEAN ReturnSingleEntry, PVOID SidList, ULONG SidListLength, PSID StartSid, BOOLEAN RestartScan, PULONG LengthReturned)
KZ_ROUTINE(NTSTATUS, STATUS_NOT_SUPPORTED, OWN_IO, FltSetQuotaInformationFile, PFLT_INSTANCE Instance, PFILE_OBJECT FileObject, PVOID Buffer, ULONG Length)
KZ_ROUTINE(NTSTATUS, STATUS_NOT_SUPPORTED, OWN_IO, FltAllocateCallbackDataEx, PFLT_INSTANCE Instance, PFILE_OBJECT FileObject, ULONG Flags, PFLT_CALLBACK_DATA *RetNewCallbackData)
KZ_ROUTINE(NTSTATUS, STATUS_NOT_SUPPORTED, REPARSE, FltCopyOpenReparseList, PFLT_FILTER Filter, PFLT_CALLBACK_DATA Data, PECP_LIST EcpList)
KZ_ROUTINE(VOID, , REPARSE, FltFreeOpenReparseList, PFLT_FILTER Filter, PECP_LIST EcpList)
KZ_ROUTINE(NTSTATUS, STATUS_NOT_SUPPORTED, OWN_IO, FltPrefetchFile, PFLT_INSTANCE Instance, PFILE_OBJECT FileObject, PVOID PrefetchOpenData)

/* ---- Extra create parameters. */
KZ_ROUTINE(VOID, , ECP, FltInitExtraCreateParameterLookasideList, PFLT_FILTER Filter, PVOID Lookaside, FSRTL_ECP_LOOKASIDE_FLAGS Flags, SIZE_T Size, ULONG Tag)
KZ_ROUTINE(VOID, , ECP, FltDeleteExtraCreateParameterLookasideList, PFLT_FILTER Filter, PVOID Lookaside, FSRTL_ECP_LOOKASIDE_FLAGS Flags)
KZ_ROUTINE(NTSTATUS, STATUS_NOT_SUPPORTED, ECP, FltAllocateExtraCreateParameterFromLookasideList, PFLT_FILTER Filter, LPCGUID EcpType, ULONG SizeOfContext, FSRTL_ALLOCATE_ECP_FLAGS Flags,
           PFSRTL_EXTRA_CREATE_PARAMETER_CLEANUP_CALLBACK CleanupCallback, PVOID LookasideList, PVOID *EcpContext)
