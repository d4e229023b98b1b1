/* Routines of the kit that are declared and aren't modelled: KZ_ROUTINE(type, answer, LIMIT, name, parameters). Each answers so, and tells its LIMIT with its name; with `| WAITS` it waits in the kit, or ends a wait. ntifs.h declares them by
 * this table, and the host makes their bodies by it. A routine that is modelled has no line here. */

/* ---- Objects of the system by their handles. */
KZ_ROUTINE(NTSTATUS, STATUS_NOT_SUPPORTED, NOT_MODELLED, ZwNotifyChangeKey, HANDLE KeyHandle, HANDLE EventHandle, PIO_APC_ROUTINE ApcRoutine, PVOID ApcContext, PIO_STATUS_BLOCK IoStatusBlock,
           ULONG NotifyFilter, BOOLEAN WatchSubtree, PVOID Buffer, ULONG BufferLength, BOOLEAN Asynchronous)
KZ_ROUTINE(NTSTATUS, STATUS_NOT_SUPPORTED, OWN_IO, ZwQueryFullAttributesFile, POBJECT_ATTRIBUTES ObjectAttributes, PFILE_NETWORK_OPEN_INFORMATION FileInformation)
KZ_ROUTINE(NTSTATUS, STATUS_NOT_SUPPORTED, SECTION, ZwCreateSection, PHANDLE SectionHandle, ACCESS_MASK DesiredAccess, POBJECT_ATTRIBUTES ObjectAttributes, PLARGE_INTEGER MaximumSize,
           ULONG SectionPageProtection, ULONG AllocationAttributes, HANDLE FileHandle)
KZ_ROUTINE(NTSTATUS, STATUS_NOT_SUPPORTED, NOT_MODELLED, ZwSetInformationProcess, HANDLE ProcessHandle, PROCESSINFOCLASS ProcessInformationClass, PVOID ProcessInformation,
           ULONG ProcessInformationLength)
KZ_ROUTINE(NTSTATUS, STATUS_NOT_SUPPORTED, NOT_MODELLED, ZwQueryInformationThread, HANDLE ThreadHandle, THREADINFOCLASS ThreadInformationClass, PVOID ThreadInformation, ULONG ThreadInformationLength,
           PULONG ReturnLength)
KZ_ROUTINE(NTSTATUS, STATUS_NOT_SUPPORTED, NOT_MODELLED, ZwQuerySystemInformation, SYSTEM_INFORMATION_CLASS SystemInformationClass, PVOID SystemInformation, ULONG SystemInformationLength,
           PULONG ReturnLength)
KZ_ROUTINE(NTSTATUS, STATUS_NOT_SUPPORTED, NOT_MODELLED, ZwOpenThread, PHANDLE ThreadHandle, ACCESS_MASK DesiredAccess, POBJECT_ATTRIBUTES ObjectAttributes, PCLIENT_ID ClientId)
KZ_ROUTINE(NTSTATUS, STATUS_NOT_SUPPORTED, NOT_MODELLED, ZwTerminateProcess, HANDLE ProcessHandle, NTSTATUS ExitStatus)
KZ_ROUTINE(NTSTATUS, STATUS_NOT_SUPPORTED, SECURITY, ZwOpenThreadTokenEx, HANDLE ThreadHandle, ACCESS_MASK DesiredAccess, BOOLEAN OpenAsSelf, ULONG HandleAttributes, PHANDLE TokenHandle)
KZ_ROUTINE(NTSTATUS, STATUS_NOT_SUPPORTED, SECURITY, ZwDuplicateToken, HANDLE ExistingTokenHandle, ACCESS_MASK DesiredAccess, POBJECT_ATTRIBUTES ObjectAttributes, BOOLEAN EffectiveOnly,
           TOKEN_TYPE TokenType, PHANDLE NewTokenHandle)
KZ_ROUTINE(NTSTATUS, STATUS_NOT_SUPPORTED, NOT_MODELLED, ZwDuplicateObject, HANDLE SourceProcessHandle, HANDLE SourceHandle, HANDLE TargetProcessHandle, PHANDLE TargetHandle,
           ACCESS_MASK DesiredAccess, ULONG HandleAttributes, ULONG Options)
KZ_ROUTINE(NTSTATUS, STATUS_NOT_SUPPORTED, NOT_MODELLED, ZwQueryObject, HANDLE Handle, OBJECT_INFORMATION_CLASS ObjectInformationClass, PVOID ObjectInformation, ULONG ObjectInformationLength,
           PULONG ReturnLength)
KZ_ROUTINE(NTSTATUS, STATUS_NOT_SUPPORTED, NOBODY_SETS | WAITS, ZwWaitForSingleObject, HANDLE Handle, BOOLEAN Alertable, PLARGE_INTEGER Timeout)
KZ_ROUTINE(NTSTATUS, STATUS_NOT_SUPPORTED, NOT_MODELLED, ZwSetEvent, HANDLE EventHandle, PLONG PreviousState)
KZ_ROUTINE(NTSTATUS, STATUS_NOT_SUPPORTED, NOT_MODELLED, ZwCreateEvent, PHANDLE EventHandle, ACCESS_MASK DesiredAccess, POBJECT_ATTRIBUTES ObjectAttributes, EVENT_TYPE EventType,
           BOOLEAN InitialState)
KZ_ROUTINE(NTSTATUS, STATUS_NOT_SUPPORTED, NOT_MODELLED, ZwOpenSymbolicLinkObject, PHANDLE LinkHandle, ACCESS_MASK DesiredAccess, POBJECT_ATTRIBUTES ObjectAttributes)
KZ_ROUTINE(NTSTATUS, STATUS_NOT_SUPPORTED, NOT_MODELLED, ZwQuerySymbolicLinkObject, HANDLE LinkHandle, PUNICODE_STRING LinkTarget, PULONG ReturnedLength)
KZ_ROUTINE(NTSTATUS, STATUS_NOT_SUPPORTED, NOT_MODELLED, ZwOpenDirectoryObject, PHANDLE DirectoryHandle, ACCESS_MASK DesiredAccess, POBJECT_ATTRIBUTES ObjectAttributes)
KZ_ROUTINE(NTSTATUS, STATUS_NOT_SUPPORTED, NOT_MODELLED, ZwMakeTemporaryObject, HANDLE Handle)
KZ_ROUTINE(NTSTATUS, STATUS_NOT_SUPPORTED, NOT_MODELLED, ZwAllocateVirtualMemory, HANDLE ProcessHandle, PVOID *BaseAddress, ULONG_PTR ZeroBits, PSIZE_T RegionSize, ULONG AllocationType, ULONG Protect)
KZ_ROUTINE(NTSTATUS, STATUS_NOT_SUPPORTED, NOT_MODELLED, ZwFreeVirtualMemory, HANDLE ProcessHandle, PVOID *BaseAddress, PSIZE_T RegionSize, ULONG FreeType)
KZ_ROUTINE(NTSTATUS, STATUS_NOT_SUPPORTED, NOT_MODELLED, ZwLoadDriver, PUNICODE_STRING DriverServiceName)
KZ_ROUTINE(NTSTATUS, STATUS_NOT_SUPPORTED, NOT_MODELLED, ZwUnloadDriver, PUNICODE_STRING DriverServiceName)

/* ---- The run-time library. */
KZ_ROUTINE(NTSTATUS, STATUS_NOT_SUPPORTED, SECURITY, RtlCreateSecurityDescriptor, PSECURITY_DESCRIPTOR SecurityDescriptor, ULONG Revision)
KZ_ROUTINE(NTSTATUS, STATUS_NOT_SUPPORTED, SECURITY, RtlSetDaclSecurityDescriptor, PSECURITY_DESCRIPTOR SecurityDescriptor, BOOLEAN DaclPresent, PACL Dacl, BOOLEAN DaclDefaulted)
KZ_ROUTINE(NTSTATUS, STATUS_NOT_SUPPORTED, SECURITY, RtlSetOwnerSecurityDescriptor, PSECURITY_DESCRIPTOR SecurityDescriptor, PSID Owner, BOOLEAN OwnerDefaulted)
KZ_ROUTINE(NTSTATUS, STATUS_NOT_SUPPORTED, SECURITY, RtlCreateAcl, PACL Acl, ULONG AclLength, ULONG AclRevision)
KZ_ROUTINE(NTSTATUS, STATUS_NOT_SUPPORTED, SECURITY, RtlAddAccessAllowedAce, PACL Acl, ULONG AceRevision, ACCESS_MASK AccessMask, PSID Sid)
KZ_ROUTINE(BOOLEAN, FALSE, SECURITY, RtlValidSecurityDescriptor, PSECURITY_DESCRIPTOR SecurityDescriptor)
KZ_ROUTINE(NTSTATUS, STATUS_NOT_SUPPORTED, NOT_MODELLED, RtlWriteRegistryValue, ULONG RelativeTo, PCWSTR Path, PCWSTR ValueName, ULONG ValueType, PVOID ValueData, ULONG ValueLength)
KZ_ROUTINE(NTSTATUS, STATUS_NOT_SUPPORTED, NOT_MODELLED, RtlDeleteRegistryValue, ULONG RelativeTo, PCWSTR Path, PCWSTR ValueName)
KZ_ROUTINE(NTSTATUS, STATUS_NOT_SUPPORTED, NOT_MODELLED, RtlCheckRegistryKey, ULONG RelativeTo, PWSTR Path)
KZ_ROUTINE(NTSTATUS, STATUS_NOT_SUPPORTED, NOT_MODELLED, RtlVerifyVersionInfo, PRTL_OSVERSIONINFOEXW VersionInfo, ULONG TypeMask, ULONGLONG ConditionMask)
KZ_ROUTINE(USHORT, 0, NOT_MODELLED, RtlCaptureStackBackTrace, ULONG FramesToSkip, ULONG FramesToCapture, PVOID *BackTrace, PULONG BackTraceHash)
KZ_ROUTINE(ULONG, 0, NOT_MODELLED, RtlWalkFrameChain, PVOID *Callers, ULONG Count, ULONG Flags)
KZ_ROUTINE(NTSTATUS, STATUS_NOT_SUPPORTED, NOT_MODELLED, RtlInitializeCorrelationVector, PCORRELATION_VECTOR CorrelationVector, int Version, const GUID *Guid)
KZ_ROUTINE(BOOLEAN, FALSE, NOT_MODELLED, RtlCreateHashTable, PRTL_DYNAMIC_HASH_TABLE *HashTable, ULONG Shift, ULONG Flags)
KZ_ROUTINE(VOID, , NOT_MODELLED, RtlDeleteHashTable, PRTL_DYNAMIC_HASH_TABLE HashTable)
KZ_ROUTINE(BOOLEAN, FALSE, NOT_MODELLED, RtlInsertEntryHashTable, PRTL_DYNAMIC_HASH_TABLE HashTable, PRTL_DYNAMIC_HASH_TABLE_ENTRY Entry, ULONG_PTR Signature,
           PRTL_DYNAMIC_HASH_TABLE_CONTEXT Context)
KZ_ROUTINE(BOOLEAN, FALSE, NOT_MODELLED, RtlRemoveEntryHashTable, PRTL_DYNAMIC_HASH_TABLE HashTable, PRTL_DYNAMIC_HASH_TABLE_ENTRY Entry, PRTL_DYNAMIC_HASH_TABLE_CONTEXT Context)
KZ_ROUTINE(PRTL_DYNAMIC_HASH_TABLE_ENTRY, NULL, NOT_MODELLED, RtlLookupEntryHashTable, PRTL_DYNAMIC_HASH_TABLE HashTable, ULONG_PTR Signature, PRTL_DYNAMIC_HASH_TABLE_CONTEXT Context)

/* ---- The kernel and the executive. */
KZ_ROUTINE(LONG, 0, NOT_MODELLED | WAITS, KePulseEvent, PRKEVENT Event, KPRIORITY Increment, BOOLEAN Wait)
KZ_ROUTINE(VOID, , NOT_MODELLED, KeAttachProcess, PKPROCESS Process)
KZ_ROUTINE(VOID, , NOT_MODELLED, KeDetachProcess, VOID)
KZ_ROUTINE(VOID, , THREAD, KeInitializeQueue, PRKQUEUE Queue, ULONG Count)
KZ_ROUTINE(LONG, 0, THREAD | WAITS, KeInsertQueue, PRKQUEUE Queue, PLIST_ENTRY Entry)
KZ_ROUTINE(PLIST_ENTRY, NULL, THREAD | WAITS, KeRemoveQueue, PRKQUEUE Queue, KPROCESSOR_MODE WaitMode, PLARGE_INTEGER Timeout)
KZ_ROUTINE(PLIST_ENTRY, NULL, THREAD | WAITS, KeRundownQueue, PRKQUEUE Queue)
KZ_ROUTINE(NTSTATUS, STATUS_NOT_SUPPORTED, NOT_MODELLED, KeExpandKernelStackAndCallout, PEXPAND_STACK_CALLOUT Callout, PVOID Parameter, SIZE_T Size)
KZ_ROUTINE(BOOLEAN, FALSE, NOT_MODELLED, KeRegisterBugCheckCallback, PKBUGCHECK_CALLBACK_RECORD CallbackRecord, PKBUGCHECK_CALLBACK_ROUTINE CallbackRoutine, PVOID Buffer, ULONG Length,
           PUCHAR Component)
KZ_ROUTINE(ULONG_PTR, 0, NOT_MODELLED, KeIpiGenericCall, PKIPI_BROADCAST_WORKER BroadcastFunction, ULONG_PTR Context)
KZ_ROUTINE(PVOID, NULL, NOT_MODELLED, ExAllocatePool3, ULONGLONG Flags, SIZE_T NumberOfBytes, ULONG Tag, PCPOOL_EXTENDED_PARAMETER ExtendedParameters, ULONG ExtendedParametersCount)
KZ_ROUTINE(NTSTATUS, STATUS_NOT_SUPPORTED, NOT_MODELLED, ExCreateCallback, PCALLBACK_OBJECT *CallbackObject, POBJECT_ATTRIBUTES ObjectAttributes, BOOLEAN Create, BOOLEAN AllowMultipleCallbacks)
KZ_ROUTINE(PVOID, NULL, NOT_MODELLED, ExRegisterCallback, PCALLBACK_OBJECT CallbackObject, PCALLBACK_FUNCTION CallbackFunction, PVOID CallbackContext)
KZ_ROUTINE(VOID, , NOT_MODELLED, ExNotifyCallback, PVOID CallbackObject, PVOID Argument1, PVOID Argument2)
KZ_ROUTINE(VOID, , NOT_MODELLED, ExUnregisterCallback, PVOID CallbackRegistration)
KZ_ROUTINE(BOOLEAN, FALSE, NOT_MODELLED, ExIsProcessorFeaturePresent, ULONG ProcessorFeature)
KZ_ROUTINE(NTSTATUS, STATUS_NOT_SUPPORTED, NOT_MODELLED, ExGetFirmwareEnvironmentVariable, PUNICODE_STRING VariableName, LPGUID VendorGuid, PVOID Value, PULONG ValueLength, PULONG Attributes)
KZ_ROUTINE(BOOLEAN, FALSE, NOT_MODELLED, ExVerifySuite, SUITE_TYPE SuiteType)

/* ---- Processes, tokens, callbacks of objects and of the registry. */
KZ_ROUTINE(PACCESS_TOKEN, NULL, SECURITY, PsReferenceImpersonationToken, PETHREAD Thread, PBOOLEAN CopyOnOpen, PBOOLEAN EffectiveOnly, PSECURITY_IMPERSONATION_LEVEL ImpersonationLevel)
KZ_ROUTINE(VOID, , SECURITY, PsDereferenceImpersonationToken, PACCESS_TOKEN ImpersonationToken)
KZ_ROUTINE(PVOID, NULL, NOT_MODELLED, PsGetProcessPeb, PEPROCESS Process)
KZ_ROUTINE(PVOID, NULL, NOT_MODELLED, PsGetProcessWow64Process, PEPROCESS Process)
KZ_ROUTINE(PVOID, NULL, NOT_MODELLED, PsGetProcessSectionBaseAddress, PEPROCESS Process)
KZ_ROUTINE(NTSTATUS, STATUS_NOT_SUPPORTED, NOT_MODELLED, PsSuspendProcess, PEPROCESS Process)
KZ_ROUTINE(NTSTATUS, STATUS_NOT_SUPPORTED, NOT_MODELLED, PsResumeProcess, PEPROCESS Process)
KZ_ROUTINE(BOOLEAN, FALSE, NOT_MODELLED, PsIsThreadTerminating, PETHREAD Thread)
KZ_ROUTINE(NTSTATUS, STATUS_NOT_SUPPORTED, SECURITY, PsImpersonateClient, PETHREAD Thread, PACCESS_TOKEN Token, BOOLEAN CopyOnOpen, BOOLEAN EffectiveOnly,
           SECURITY_IMPERSONATION_LEVEL ImpersonationLevel)
KZ_ROUTINE(VOID, , SECURITY, PsRevertToSelf, VOID)
KZ_ROUTINE(BOOLEAN, FALSE, SECURITY, SeAccessCheck, PSECURITY_DESCRIPTOR SecurityDescriptor, PSECURITY_SUBJECT_CONTEXT SubjectSecurityContext, BOOLEAN SubjectContextLocked, ACCESS_MASK DesiredAccess,
           ACCESS_MASK PreviouslyGrantedAccess, PPRIVILEGE_SET *Privileges, PGENERIC_MAPPING GenericMapping, KPROCESSOR_MODE AccessMode, PACCESS_MASK GrantedAccess, PNTSTATUS AccessStatus)
KZ_ROUTINE(BOOLEAN, FALSE, SECURITY, SePrivilegeCheck, PPRIVILEGE_SET RequiredPrivileges, PSECURITY_SUBJECT_CONTEXT SubjectSecurityContext, KPROCESSOR_MODE AccessMode)
KZ_ROUTINE(NTSTATUS, STATUS_NOT_SUPPORTED, SECURITY, SeGetCachedSigningLevel, PFILE_OBJECT File, PULONG Flags, PUCHAR SigningLevel, PUCHAR Thumbprint, PULONG ThumbprintSize,
           PULONG ThumbprintAlgorithm)
KZ_ROUTINE(NTSTATUS, STATUS_NOT_SUPPORTED, SECURITY, SeCreateClientSecurity, PETHREAD ClientThread, PSECURITY_QUALITY_OF_SERVICE ClientSecurityQos, BOOLEAN RemoteSession,
           PSECURITY_CLIENT_CONTEXT ClientContext)
KZ_ROUTINE(VOID, , SECURITY, SeDeleteClientSecurity, PSECURITY_CLIENT_CONTEXT ClientContext)
KZ_ROUTINE(NTSTATUS, STATUS_NOT_SUPPORTED, SECURITY, SeImpersonateClientEx, PSECURITY_CLIENT_CONTEXT ClientContext, PETHREAD ServerThread)
KZ_ROUTINE(NTSTATUS, STATUS_NOT_SUPPORTED, SECURITY, SeFilterToken, PACCESS_TOKEN ExistingToken, ULONG Flags, PTOKEN_GROUPS SidsToDisable, PTOKEN_PRIVILEGES PrivilegesToDelete,
           PTOKEN_GROUPS RestrictedSids, PACCESS_TOKEN *FilteredToken)
KZ_ROUTINE(NTSTATUS, STATUS_NOT_SUPPORTED, NOT_MODELLED, ObReferenceObjectByName, PUNICODE_STRING ObjectName, ULONG Attributes, PACCESS_STATE PassedAccessState, ACCESS_MASK DesiredAccess,
           POBJECT_TYPE ObjectType, KPROCESSOR_MODE AccessMode, PVOID ParseContext, PVOID *Object)
KZ_ROUTINE(NTSTATUS, STATUS_NOT_SUPPORTED, NOT_MODELLED, ObInsertObject, PVOID Object, PACCESS_STATE PassedAccessState, ACCESS_MASK DesiredAccess, ULONG ObjectPointerBias, PVOID *NewObject,
           PHANDLE Handle)
KZ_ROUTINE(VOID, , NOT_MODELLED, ObMakeTemporaryObject, PVOID Object)
KZ_ROUTINE(POBJECT_TYPE, NULL, NOT_MODELLED, ObGetObjectType, PVOID Object)

/* ---- File systems. */
KZ_ROUTINE(VOID, , NOT_MODELLED, FsRtlTeardownPerStreamContexts, PFSRTL_ADVANCED_FCB_HEADER AdvancedHeader)
KZ_ROUTINE(NTSTATUS, STATUS_NOT_SUPPORTED, NOT_MODELLED, FsRtlInsertPerStreamContext, PFSRTL_ADVANCED_FCB_HEADER PerStreamContext, PFSRTL_PER_STREAM_CONTEXT Ptr)
KZ_ROUTINE(PFSRTL_PER_STREAM_CONTEXT, NULL, NOT_MODELLED, FsRtlLookupPerStreamContext, PFSRTL_ADVANCED_FCB_HEADER StreamContext, PVOID OwnerId, PVOID InstanceId)
KZ_ROUTINE(PFSRTL_PER_STREAM_CONTEXT, NULL, NOT_MODELLED, FsRtlRemovePerStreamContext, PFSRTL_ADVANCED_FCB_HEADER StreamContext, PVOID OwnerId, PVOID InstanceId)
KZ_ROUTINE(VOID, , NOT_MODELLED, FsRtlSetupAdvancedHeader, PVOID AdvancedHeader, PFAST_MUTEX FastMutex)
KZ_ROUTINE(VOID, , NOT_MODELLED, FsRtlNotifyFullReportChange, PNOTIFY_SYNC NotifySync, PLIST_ENTRY NotifyList, PSTRING FullTargetName, USHORT TargetNameOffset, PSTRING StreamName,
           PSTRING NormalizedParentName, ULONG FilterMatch, ULONG Action, PVOID TargetContext)
KZ_ROUTINE(VOID, , NOT_MODELLED, FsRtlNotifyInitializeSync, PNOTIFY_SYNC *NotifySync)
KZ_ROUTINE(VOID, , NOT_MODELLED, FsRtlNotifyUninitializeSync, PNOTIFY_SYNC *NotifySync)
KZ_ROUTINE(BOOLEAN, FALSE, ECP, FsRtlIsEcpFromUserMode, PVOID EcpContext)
KZ_ROUTINE(NTSTATUS, STATUS_NOT_FOUND, ECP, FsRtlFindExtraCreateParameter, PECP_LIST EcpList, const GUID *EcpType, PVOID *EcpContext, ULONG *EcpContextSize)
KZ_ROUTINE(NTSTATUS, STATUS_NOT_SUPPORTED, ECP, FsRtlGetEcpListFromIrp, PIRP Irp, PECP_LIST *EcpList)
KZ_ROUTINE(NTSTATUS, STATUS_NOT_SUPPORTED, SECTION, FsRtlCreateSectionForDataScan, PHANDLE SectionHandle, PVOID *SectionObject, PLARGE_INTEGER SectionFileSize, PFILE_OBJECT FileObject,
           ACCESS_MASK DesiredAccess, POBJECT_ATTRIBUTES ObjectAttributes, PLARGE_INTEGER MaximumSize, ULONG SectionPageProtection, ULONG AllocationAttributes, ULONG Flags)
KZ_ROUTINE(NTSTATUS, STATUS_NOT_SUPPORTED, FILE_LOCK | WAITS, FsRtlProcessFileLock, PFILE_LOCK FileLock, PIRP Irp, PVOID Context)
KZ_ROUTINE(NTSTATUS, STATUS_NOT_SUPPORTED, OPLOCK, FsRtlCheckOplock, POPLOCK Oplock, PIRP Irp, PVOID Context, POPLOCK_WAIT_COMPLETE_ROUTINE CompletionRoutine, POPLOCK_FS_PREPOST_IRP PostIrpRoutine)
KZ_ROUTINE(BOOLEAN, FALSE, OWN_IO, FsRtlCopyRead, PFILE_OBJECT FileObject, PLARGE_INTEGER FileOffset, ULONG Length, BOOLEAN Wait, ULONG LockKey, PVOID Buffer, PIO_STATUS_BLOCK IoStatus,
           PDEVICE_OBJECT DeviceObject)
KZ_ROUTINE(BOOLEAN, FALSE, OWN_IO, FsRtlCopyWrite, PFILE_OBJECT FileObject, PLARGE_INTEGER FileOffset, ULONG Length, BOOLEAN Wait, ULONG LockKey, PVOID Buffer, PIO_STATUS_BLOCK IoStatus,
           PDEVICE_OBJECT DeviceObject)
KZ_ROUTINE(NTSTATUS, STATUS_NOT_SUPPORTED, CALLBACKS, FsRtlRegisterFileSystemFilterCallbacks, PDRIVER_OBJECT FilterDriverObject, PFS_FILTER_CALLBACKS Callbacks)

/* ---- I/O, devices and requests that a driver makes. */
KZ_ROUTINE(NTSTATUS, STATUS_NOT_SUPPORTED, OWN_IO, IoCreateFileSpecifyDeviceObjectHint, PHANDLE FileHandle, ACCESS_MASK DesiredAccess, POBJECT_ATTRIBUTES ObjectAttributes,
           PIO_STATUS_BLOCK IoStatusBlock, PLARGE_INTEGER AllocationSize, ULONG FileAttributes, ULONG ShareAccess, ULONG Disposition, ULONG CreateOptions, PVOID EaBuffer, ULONG EaLength,
           CREATE_FILE_TYPE CreateFileType, PVOID InternalParameters, ULONG Options, PVOID DeviceObject)
KZ_ROUTINE(NTSTATUS, STATUS_NOT_SUPPORTED, OWN_IO, IoCreateFileEx, PHANDLE FileHandle, ACCESS_MASK DesiredAccess, POBJECT_ATTRIBUTES ObjectAttributes, PIO_STATUS_BLOCK IoStatusBlock,
           PLARGE_INTEGER AllocationSize, ULONG FileAttributes, ULONG ShareAccess, ULONG Disposition, ULONG CreateOptions, PVOID EaBuffer, ULONG EaLength, CREATE_FILE_TYPE CreateFileType,
           PVOID InternalParameters, ULONG Options, PIO_DRIVER_CREATE_CONTEXT DriverContext)
KZ_ROUTINE(PEPROCESS, NULL, NOT_MODELLED, IoGetRequestorProcess, PIRP Irp)
KZ_ROUTINE(PGENERIC_MAPPING, NULL, SECURITY, IoGetFileObjectGenericMapping, VOID)
KZ_ROUTINE(NTSTATUS, STATUS_NOT_SUPPORTED, DEVICE, IoGetDeviceObjectPointer, PUNICODE_STRING ObjectName, ACCESS_MASK DesiredAccess, PFILE_OBJECT *FileObject, PDEVICE_OBJECT *DeviceObject)
KZ_ROUTINE(PDEVICE_OBJECT, NULL, DEVICE, IoGetAttachedDeviceReference, PDEVICE_OBJECT DeviceObject)
KZ_ROUTINE(PDEVICE_OBJECT, NULL, DEVICE, IoGetBaseFileSystemDeviceObject, PFILE_OBJECT FileObject)
KZ_ROUTINE(NTSTATUS, STATUS_NOT_SUPPORTED, DEVICE, IoGetDiskDeviceObject, PDEVICE_OBJECT FileSystemDeviceObject, PDEVICE_OBJECT *DiskDeviceObject)
KZ_ROUTINE(PIRP, NULL, OWN_IO, IoAllocateIrp, CCHAR StackSize, BOOLEAN ChargeQuota)
KZ_ROUTINE(VOID, , OWN_IO, IoFreeIrp, PIRP Irp)
KZ_ROUTINE(NTSTATUS, STATUS_NOT_SUPPORTED, OWN_IO, IofCallDriver, PDEVICE_OBJECT DeviceObject, PIRP Irp)
KZ_ROUTINE(PIRP, NULL, OWN_IO, IoBuildDeviceIoControlRequest, ULONG IoControlCode, PDEVICE_OBJECT DeviceObject, PVOID InputBuffer, ULONG InputBufferLength, PVOID OutputBuffer,
           ULONG OutputBufferLength, BOOLEAN InternalDeviceIoControl, PKEVENT Event, PIO_STATUS_BLOCK IoStatusBlock)
KZ_ROUTINE(VOID, , THREAD, IoQueueWorkItemEx, PIO_WORKITEM IoWorkItem, PIO_WORKITEM_ROUTINE_EX WorkerRoutine, WORK_QUEUE_TYPE QueueType, PVOID Context)
KZ_ROUTINE(NTSTATUS, STATUS_SUCCESS, NOTIFY, IoRegisterShutdownNotification, PDEVICE_OBJECT DeviceObject)
KZ_ROUTINE(NTSTATUS, STATUS_SUCCESS, NOTIFY, IoRegisterLastChanceShutdownNotification, PDEVICE_OBJECT DeviceObject)
KZ_ROUTINE(VOID, , NOTIFY, IoUnregisterShutdownNotification, PDEVICE_OBJECT DeviceObject)
KZ_ROUTINE(VOID, , NOTIFY, IoRegisterBootDriverReinitialization, PDRIVER_OBJECT DriverObject, PDRIVER_REINITIALIZE DriverReinitializationRoutine, PVOID Context)
KZ_ROUTINE(VOID, , NOTIFY, IoRegisterDriverReinitialization, PDRIVER_OBJECT DriverObject, PDRIVER_REINITIALIZE DriverReinitializationRoutine, PVOID Context)
KZ_ROUTINE(NTSTATUS, STATUS_SUCCESS, NOTIFY, IoRegisterFsRegistrationChange, PDRIVER_OBJECT DriverObject, PDRIVER_FS_NOTIFICATION DriverNotificationRoutine)
KZ_ROUTINE(VOID, , NOTIFY, IoUnregisterFsRegistrationChange, PDRIVER_OBJECT DriverObject, PDRIVER_FS_NOTIFICATION DriverNotificationRoutine)
KZ_ROUTINE(NTSTATUS, STATUS_NOT_SUPPORTED, NOT_MODELLED, IoChangeFileObjectFilterContext, PFILE_OBJECT FileObject, PVOID FilterContext, BOOLEAN Define)
KZ_ROUTINE(VOID, , NOT_MODELLED, IoWriteErrorLogEntry, PVOID ElEntry)
KZ_ROUTINE(PVOID, NULL, NOT_MODELLED, IoAllocateErrorLogEntry, PVOID IoObject, UCHAR EntrySize)
KZ_ROUTINE(VOID, , NOT_MODELLED, IoFreeErrorLogEntry, PVOID ElEntry)
KZ_ROUTINE(BOOLEAN, TRUE, NOT_MODELLED, IoIsOperationSynchronous, PIRP Irp)
KZ_ROUTINE(NTSTATUS, STATUS_NOT_SUPPORTED, DEVICE, IoCsqInitialize, PIO_CSQ Csq, PIO_CSQ_INSERT_IRP CsqInsertIrp, PIO_CSQ_REMOVE_IRP CsqRemoveIrp, PIO_CSQ_PEEK_NEXT_IRP CsqPeekNextIrp,
           PIO_CSQ_ACQUIRE_LOCK CsqAcquireLock, PIO_CSQ_RELEASE_LOCK CsqReleaseLock, PIO_CSQ_COMPLETE_CANCELED_IRP CsqCompleteCanceledIrp)
KZ_ROUTINE(VOID, , DEVICE, IoCsqInsertIrp, PIO_CSQ Csq, PIRP Irp, PIO_CSQ_IRP_CONTEXT Context)
KZ_ROUTINE(PIRP, NULL, DEVICE, IoCsqRemoveNextIrp, PIO_CSQ Csq, PVOID PeekContext)
KZ_ROUTINE(PIRP, NULL, DEVICE, IoCsqRemoveIrp, PIO_CSQ Csq, PIO_CSQ_IRP_CONTEXT Context)

/* ---- Memory and the cache. */
KZ_ROUTINE(PVOID, NULL, NOT_MODELLED, MmMapLockedPages, PMDL MemoryDescriptorList, KPROCESSOR_MODE AccessMode)
KZ_ROUTINE(ULONG, 0, SECTION, MmDoesFileHaveUserWritableReferences, PSECTION_OBJECT_POINTERS SectionPointer)
KZ_ROUTINE(BOOLEAN, TRUE, SECTION, MmForceSectionClosed, PSECTION_OBJECT_POINTERS SectionObjectPointer, BOOLEAN DelayClose)
KZ_ROUTINE(PMDL, NULL, NOT_MODELLED, MmCreateMdl, PMDL MemoryDescriptorList, PVOID Base, SIZE_T Length)
KZ_ROUTINE(NTSTATUS, STATUS_NOT_SUPPORTED, NOT_MODELLED, MmCopyMemory, PVOID TargetAddress, MM_COPY_ADDRESS SourceAddress, SIZE_T NumberOfBytes, ULONG Flags, PSIZE_T NumberOfBytesTransferred)
KZ_ROUTINE(VOID, , CACHE, CcInitializeCacheMap, PFILE_OBJECT FileObject, PCC_FILE_SIZES FileSizes, BOOLEAN PinAccess, PCACHE_MANAGER_CALLBACKS Callbacks, PVOID LazyWriteContext)
KZ_ROUTINE(BOOLEAN, TRUE, CACHE, CcUninitializeCacheMap, PFILE_OBJECT FileObject, PLARGE_INTEGER TruncateSize, PCACHE_UNINITIALIZE_EVENT UninitializeCompleteEvent)
KZ_ROUTINE(BOOLEAN, FALSE, CACHE, CcCopyRead, PFILE_OBJECT FileObject, PLARGE_INTEGER FileOffset, ULONG Length, BOOLEAN Wait, PVOID Buffer, PIO_STATUS_BLOCK IoStatus)
KZ_ROUTINE(BOOLEAN, FALSE, CACHE, CcCopyWrite, PFILE_OBJECT FileObject, PLARGE_INTEGER FileOffset, ULONG Length, BOOLEAN Wait, PVOID Buffer)
KZ_ROUTINE(VOID, , CACHE, CcSetFileSizes, PFILE_OBJECT FileObject, PCC_FILE_SIZES FileSizes)
KZ_ROUTINE(PLARGE_INTEGER, NULL, CACHE, CcGetFileSizePointer, PFILE_OBJECT FileObject)
KZ_ROUTINE(BOOLEAN, FALSE, CACHE, CcIsThereDirtyData, PVPB Vpb)
KZ_ROUTINE(VOID, , CACHE, CcMdlRead, PFILE_OBJECT FileObject, PLARGE_INTEGER FileOffset, ULONG Length, PMDL *MdlChain, PIO_STATUS_BLOCK IoStatus)
KZ_ROUTINE(VOID, , CACHE, CcMdlReadComplete, PFILE_OBJECT FileObject, PMDL MdlChain)
KZ_ROUTINE(BOOLEAN, FALSE, CACHE, CcZeroData, PFILE_OBJECT FileObject, PLARGE_INTEGER StartOffset, PLARGE_INTEGER EndOffset, BOOLEAN Wait)
KZ_ROUTINE(NTSTATUS, STATUS_SUCCESS, CACHE | WAITS, CcWaitForCurrentLazyWriterActivity, VOID)
KZ_ROUTINE(VOID, , CACHE, CcCoherencyFlushAndPurgeCache, PSECTION_OBJECT_POINTERS SectionObjectPointer, PLARGE_INTEGER FileOffset, ULONG Length, PIO_STATUS_BLOCK IoStatus, ULONG Flags)

/* ---- Modules. */
KZ_ROUTINE(NTSTATUS, STATUS_NOT_SUPPORTED, NOT_MODELLED, AuxKlibInitialize, VOID)
KZ_ROUTINE(NTSTATUS, STATUS_NOT_SUPPORTED, NOT_MODELLED, AuxKlibQueryModuleInformation, PULONG BufferSize, ULONG ElementSize, PVOID QueryInfo)
KZ_ROUTINE(PVOID, NULL, NOT_MODELLED, AuxKlibGetImageExportDirectory, PVOID ImageBase)
KZ_ROUTINE(PVOID, NULL, NOT_MODELLED, RtlImageNtHeader, PVOID Base)
KZ_ROUTINE(PVOID, NULL, NOT_MODELLED, RtlImageDirectoryEntryToData, PVOID Base, BOOLEAN MappedAsImage, USHORT DirectoryEntry, PULONG Size)

/* ---- Sockets of the kernel. */
KZ_ROUTINE(NTSTATUS, STATUS_NOT_SUPPORTED, NOT_MODELLED, WskRegister, PVOID WskClientNpi, PVOID WskRegistration)
KZ_ROUTINE(VOID, , NOT_MODELLED, WskDeregister, PVOID WskRegistration)
KZ_ROUTINE(NTSTATUS, STATUS_NOT_SUPPORTED, NOT_MODELLED, WskCaptureProviderNPI, PVOID WskRegistration, ULONG WaitTimeout, PVOID WskProviderNpi)
KZ_ROUTINE(VOID, , NOT_MODELLED, WskReleaseProviderNPI, PVOID WskRegistration)
