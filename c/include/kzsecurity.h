/* Access control lists, tokens and audits. */
#ifndef KZ_SECURITY_H
#define KZ_SECURITY_H

KZ_BEGIN

#define ACCESS_ALLOWED_ACE_TYPE 0
#define ACCESS_ALLOWED_CALLBACK_ACE_TYPE 9
#define ACCESS_ALLOWED_CALLBACK_OBJECT_ACE_TYPE 0xb
#define ACCESS_ALLOWED_COMPOUND_ACE_TYPE 4
#define ACCESS_ALLOWED_OBJECT_ACE_TYPE 5
#define ACCESS_DENIED_ACE_TYPE 1
#define ACCESS_DENIED_CALLBACK_ACE_TYPE 0xa
#define ACCESS_DENIED_CALLBACK_OBJECT_ACE_TYPE 0xc
#define ACCESS_DENIED_OBJECT_ACE_TYPE 6
#define ACCESS_MAX_LEVEL 4
#define ACCESS_MAX_MS_ACE_TYPE 8
#define ACCESS_MAX_MS_OBJECT_ACE_TYPE 8
#define ACCESS_MAX_MS_V2_ACE_TYPE 3
#define ACCESS_MAX_MS_V3_ACE_TYPE 4
#define ACCESS_MAX_MS_V4_ACE_TYPE 8
#define ACCESS_MAX_MS_V5_ACE_TYPE 0x11
#define ACCESS_MIN_MS_ACE_TYPE 0
#define ACCESS_MIN_MS_OBJECT_ACE_TYPE 5
#define ACCESS_OBJECT_GUID 0
#define ACCESS_PROPERTY_GUID 2
#define ACCESS_PROPERTY_SET_GUID 1
#define ACCESS_REASON_DATA_MASK 0xffff
#define ACCESS_REASON_TYPE_MASK 0xffff0000
#define CONTAINER_INHERIT_ACE 2
#define DOMAIN_ALIAS_RID_ACCOUNT_OPS 0x224
#define DOMAIN_ALIAS_RID_AUTHORIZATIONACCESS 0x230
#define DOMAIN_ALIAS_RID_BACKUP_OPS 0x227
#define DOMAIN_ALIAS_RID_CACHEABLE_PRINCIPALS_GROUP 0x23b
#define DOMAIN_ALIAS_RID_CERTSVC_DCOM_ACCESS_GROUP 0x23e
#define DOMAIN_ALIAS_RID_CRYPTO_OPERATORS 0x239
#define DOMAIN_ALIAS_RID_DCOM_USERS 0x232
#define DOMAIN_ALIAS_RID_EVENT_LOG_READERS_GROUP 0x23d
#define DOMAIN_ALIAS_RID_GUESTS 0x222
#define DOMAIN_ALIAS_RID_INCOMING_FOREST_TRUST_BUILDERS 0x22d
#define DOMAIN_ALIAS_RID_IUSERS 0x238
#define DOMAIN_ALIAS_RID_LOGGING_USERS 0x22f
#define DOMAIN_ALIAS_RID_MONITORING_USERS 0x22e
#define DOMAIN_ALIAS_RID_NETWORK_CONFIGURATION_OPS 0x22c
#define DOMAIN_ALIAS_RID_NON_CACHEABLE_PRINCIPALS_GROUP 0x23c
#define DOMAIN_ALIAS_RID_POWER_USERS 0x223
#define DOMAIN_ALIAS_RID_PREW2KCOMPACCESS 0x22a
#define DOMAIN_ALIAS_RID_PRINT_OPS 0x226
#define DOMAIN_ALIAS_RID_RAS_SERVERS 0x229
#define DOMAIN_ALIAS_RID_REMOTE_DESKTOP_USERS 0x22b
#define DOMAIN_ALIAS_RID_REPLICATOR 0x228
#define DOMAIN_ALIAS_RID_SYSTEM_OPS 0x225
#define DOMAIN_ALIAS_RID_TS_LICENSE_SERVERS 0x231
#define DOMAIN_ALIAS_RID_USERS 0x221
#define DOMAIN_GROUP_RID_ADMINS 0x200
#define DOMAIN_GROUP_RID_CERT_ADMINS 0x205
#define DOMAIN_GROUP_RID_COMPUTERS 0x203
#define DOMAIN_GROUP_RID_CONTROLLERS 0x204
#define DOMAIN_GROUP_RID_ENTERPRISE_ADMINS 0x207
#define DOMAIN_GROUP_RID_ENTERPRISE_READONLY_DOMAIN_CONTROLLERS 0x1f2
#define DOMAIN_GROUP_RID_GUESTS 0x202
#define DOMAIN_GROUP_RID_POLICY_ADMINS 0x208
#define DOMAIN_GROUP_RID_READONLY_CONTROLLERS 0x209
#define DOMAIN_GROUP_RID_SCHEMA_ADMINS 0x206
#define DOMAIN_GROUP_RID_USERS 0x201
#define DOMAIN_USER_RID_ADMIN 0x1f4
#define DOMAIN_USER_RID_GUEST 0x1f5
#define DOMAIN_USER_RID_KRBTGT 0x1f6
#define DOMAIN_USER_RID_MAX 0x3e7
#define FAILED_ACCESS_ACE_FLAG 0x80
#define INHERITED_ACE 0x10
#define INHERIT_ONLY_ACE 8
#define LABEL_SECURITY_INFORMATION 0x10
#define NO_PROPAGATE_INHERIT_ACE 4
#define OBJECT_INHERIT_ACE 1
#define PRIVILEGE_SET_ALL_NECESSARY 1
#define PROTECTED_DACL_SECURITY_INFORMATION 0x80000000
#define PROTECTED_SACL_SECURITY_INFORMATION 0x40000000
#define SECURITY_ANONYMOUS_LOGON_RID 7
#define SECURITY_APPPOOL_ID_BASE_RID 0x52
#define SECURITY_APPPOOL_ID_RID_COUNT 6
#define SECURITY_AUTHENTICATED_USER_RID 0xb
#define SECURITY_BATCH_RID 3
#define SECURITY_CLOUD_INFRASTRUCTURE_SERVICES_ID_BASE_RID 0x55
#define SECURITY_CLOUD_INFRASTRUCTURE_SERVICES_ID_RID_COUNT 6
#define SECURITY_COM_ID_BASE_RID 0x59
#define SECURITY_CREATOR_GROUP_RID 1
#define SECURITY_CREATOR_GROUP_SERVER_RID 3
#define SECURITY_CREATOR_OWNER_RID 0
#define SECURITY_CREATOR_OWNER_RIGHTS_RID 4
#define SECURITY_CREATOR_OWNER_SERVER_RID 2
#define SECURITY_CRED_TYPE_BASE_RID 0x41
#define SECURITY_CRED_TYPE_RID_COUNT 2
#define SECURITY_CRED_TYPE_THIS_ORG_CERT_RID 1
#define SECURITY_DESCRIPTOR_MIN_LENGTH 0x28
#define SECURITY_DESCRIPTOR_REVISION1 1
#define SECURITY_DIALUP_RID 1
#define SECURITY_DYNAMIC_TRACKING 1
#define SECURITY_ENTERPRISE_CONTROLLERS_RID 9
#define SECURITY_ENTERPRISE_READONLY_CONTROLLERS_RID 0x16
#define SECURITY_INITIALIZATION_FAILED 0x5f
#define SECURITY_INTERACTIVE_RID 4
#define SECURITY_IUSER_RID 0x11
#define SECURITY_LOCAL_LOGON_RID 1
#define SECURITY_LOCAL_RID 0
#define SECURITY_LOCAL_SERVICE_RID 0x13
#define SECURITY_MANDATORY_HIGH_RID 0x3000
#define SECURITY_MANDATORY_LOW_RID 0x1000
#define SECURITY_MANDATORY_MAXIMUM_USER_RID 0x4000
#define SECURITY_MANDATORY_MEDIUM_RID 0x2000
#define SECURITY_MANDATORY_PROTECTED_PROCESS_RID 0x5000
#define SECURITY_MANDATORY_SYSTEM_RID 0x4000
#define SECURITY_MANDATORY_UNTRUSTED_RID 0
#define SECURITY_MAX_ALWAYS_FILTERED 0x3e7
#define SECURITY_MAX_BASE_RID 0x6f
#define SECURITY_MAX_IMPERSONATION_LEVEL 3
#define SECURITY_MIN_BASE_RID 0x50
#define SECURITY_MIN_IMPERSONATION_LEVEL 0
#define SECURITY_MIN_NEVER_FILTERED 0x3e8
#define SECURITY_NETWORK_RID 2
#define SECURITY_NETWORK_SERVICE_RID 0x14
#define SECURITY_NFS_ID_BASE_RID 0x58
#define SECURITY_NT_NON_UNIQUE 0x15
#define SECURITY_NT_NON_UNIQUE_SUB_AUTH_COUNT 3
#define SECURITY_NULL_RID 0
#define SECURITY_OTHER_ORGANIZATION_RID 0x3e8
#define SECURITY_PACKAGE_BASE_RID 0x40
#define SECURITY_PACKAGE_DIGEST_RID 0x15
#define SECURITY_PACKAGE_NTLM_RID 0xa
#define SECURITY_PACKAGE_RID_COUNT 2
#define SECURITY_PACKAGE_SCHANNEL_RID 0xe
#define SECURITY_PRINCIPAL_SELF_RID 0xa
#define SECURITY_PROXY_RID 8
#define SECURITY_REMOTE_LOGON_RID 0xe
#define SECURITY_RESERVED_ID_BASE_RID 0x51
#define SECURITY_RESTRICTED_CODE_RID 0xc
#define SECURITY_SERVER_LOGON_RID 9
#define SECURITY_SERVICE_ID_BASE_RID 0x50
#define SECURITY_SERVICE_ID_RID_COUNT 6
#define SECURITY_SERVICE_RID 6
#define SECURITY_STATIC_TRACKING 0
#define SECURITY_SYSTEM 0x29
#define SECURITY_TASK_ID_BASE_RID 0x57
#define SECURITY_TERMINAL_SERVER_RID 0xd
#define SECURITY_THIS_ORGANIZATION_RID 0xf
#define SECURITY_USERMODEDRIVERHOST_ID_BASE_RID 0x54
#define SECURITY_USERMODEDRIVERHOST_ID_RID_COUNT 6
#define SECURITY_VIRTUALACCOUNT_ID_RID_COUNT 6
#define SECURITY_VIRTUALSERVER_ID_BASE_RID 0x53
#define SECURITY_VIRTUALSERVER_ID_RID_COUNT 6
#define SECURITY_WINDOWSMOBILE_ID_BASE_RID 0x70
#define SECURITY_WMIHOST_ID_BASE_RID 0x56
#define SECURITY_WMIHOST_ID_RID_COUNT 6
#define SECURITY_WORLD_RID 0
#define SECURITY_WRITE_RESTRICTED_CODE_RID 0x21
#define SE_ASSIGNPRIMARYTOKEN_PRIVILEGE 3
#define SE_AUDIT_PRIVILEGE 0x15
#define SE_BACKUP_PRIVILEGES_CHECKED 0x100
#define SE_CHANGE_NOTIFY_PRIVILEGE 0x17
#define SE_CREATE_GLOBAL_PRIVILEGE 0x1e
#define SE_CREATE_PAGEFILE_PRIVILEGE 0xf
#define SE_CREATE_PERMANENT_PRIVILEGE 0x10
#define SE_CREATE_SYMBOLIC_LINK_PRIVILEGE 0x23
#define SE_CREATE_TOKEN_PRIVILEGE 2
#define SE_DACL_AUTO_INHERITED 0x400
#define SE_DACL_AUTO_INHERIT_REQ 0x100
#define SE_DACL_DEFAULTED 8
#define SE_DACL_PRESENT 4
#define SE_DACL_PROTECTED 0x1000
#define SE_DACL_UNTRUSTED 0x40
#define SE_ENABLE_DELEGATION_PRIVILEGE 0x1b
#define SE_GROUP_DEFAULTED 2
#define SE_GROUP_MANDATORY 0x00000001
#define SE_GROUP_ENABLED_BY_DEFAULT 0x00000002
#define SE_GROUP_ENABLED 0x00000004
#define SE_GROUP_OWNER 0x00000008
#define SE_GROUP_USE_FOR_DENY_ONLY 0x00000010
#define SE_GROUP_INTEGRITY 0x00000020
#define SE_GROUP_INTEGRITY_ENABLED 0x00000040
#define SE_GROUP_LOGON_ID 0xC0000000
#define SE_GROUP_RESOURCE 0x20000000
#define SE_IMPERSONATE_PRIVILEGE 0x1d
#define SE_INCREASE_QUOTA_PRIVILEGE 5
#define SE_INC_BASE_PRIORITY_PRIVILEGE 0xe
#define SE_INC_WORKING_SET_PRIVILEGE 0x21
#define SE_LOAD_DRIVER_PRIVILEGE 0xa
#define SE_LOCK_MEMORY_PRIVILEGE 4
#define SE_MACHINE_ACCOUNT_PRIVILEGE 6
#define SE_MAX_AUDIT_PARAMETERS 0x20
#define SE_MAX_GENERIC_AUDIT_PARAMETERS 0x1c
#define SE_MAX_WELL_KNOWN_PRIVILEGE 0x23
#define SE_MIN_WELL_KNOWN_PRIVILEGE 2
#define SE_OWNER_DEFAULTED 1
#define SE_PRIVILEGE_ENABLED 2
#define SE_PRIVILEGE_ENABLED_BY_DEFAULT 1
#define SE_PRIVILEGE_REMOVED 4
#define SE_PRIVILEGE_USED_FOR_ACCESS 0x80000000
#define SE_PRIVILEGE_VALID_ATTRIBUTES 0x80000007
#define SE_PROF_SINGLE_PROCESS_PRIVILEGE 0xd
#define SE_RELABEL_PRIVILEGE 0x20
#define SE_REMOTE_SHUTDOWN_PRIVILEGE 0x18
#define SE_RM_CONTROL_VALID 0x4000
#define SE_SACL_AUTO_INHERITED 0x800
#define SE_SACL_AUTO_INHERIT_REQ 0x200
#define SE_SACL_DEFAULTED 0x20
#define SE_SACL_PRESENT 0x10
#define SE_SACL_PROTECTED 0x2000
#define SE_SECURITY_DESCRIPTOR_FLAG_NO_LABEL_ACE 2
#define SE_SECURITY_DESCRIPTOR_FLAG_NO_OWNER_ACE 1
#define SE_SECURITY_DESCRIPTOR_VALID_FLAGS 3
#define SE_SELF_RELATIVE 0x8000
#define SE_SERVER_SECURITY 0x80
#define SE_SHUTDOWN_PRIVILEGE 0x13
#define SE_SYNC_AGENT_PRIVILEGE 0x1a
#define SE_SYSTEMTIME_PRIVILEGE 0xc
#define SE_SYSTEM_ENVIRONMENT_PRIVILEGE 0x16
#define SE_SYSTEM_PROFILE_PRIVILEGE 0xb
#define SE_TAKE_OWNERSHIP_PRIVILEGE 9
#define SE_TIME_ZONE_PRIVILEGE 0x22
#define SE_TRUSTED_CREDMAN_ACCESS_PRIVILEGE 0x1f
#define SE_UNDOCK_PRIVILEGE 0x19
#define SE_UNSOLICITED_INPUT_PRIVILEGE 6
#define SUCCESSFUL_ACCESS_ACE_FLAG 0x40
#define SYSTEM_ALARM_ACE_TYPE 3
#define SYSTEM_ALARM_CALLBACK_ACE_TYPE 0xe
#define SYSTEM_ALARM_CALLBACK_OBJECT_ACE_TYPE 0x10
#define SYSTEM_ALARM_OBJECT_ACE_TYPE 8
#define SYSTEM_AUDIT_ACE_TYPE 2
#define SYSTEM_AUDIT_CALLBACK_ACE_TYPE 0xd
#define SYSTEM_AUDIT_CALLBACK_OBJECT_ACE_TYPE 0xf
#define SYSTEM_AUDIT_OBJECT_ACE_TYPE 7
#define SYSTEM_MANDATORY_LABEL_ACE_TYPE 0x11
#define SYSTEM_MANDATORY_LABEL_NO_EXECUTE_UP 4
#define SYSTEM_MANDATORY_LABEL_NO_READ_UP 2
#define SYSTEM_MANDATORY_LABEL_NO_WRITE_UP 1
#define SYSTEM_MANDATORY_LABEL_VALID_MASK 7
#define TOKEN_ADJUST_DEFAULT 0x80
#define TOKEN_ADJUST_GROUPS 0x40
#define TOKEN_ADJUST_PRIVILEGES 0x20
#define TOKEN_ADJUST_SESSIONID 0x100
#define TOKEN_ALL_ACCESS 0xf01ff
#define TOKEN_ALL_ACCESS_P 0xf00ff
#define TOKEN_ASSIGN_PRIMARY 1
#define TOKEN_DUPLICATE 2
#define TOKEN_EXECUTE 0x20000
#define TOKEN_HAS_ADMIN_GROUP 8
#define TOKEN_HAS_BACKUP_PRIVILEGE 2
#define TOKEN_HAS_IMPERSONATE_PRIVILEGE 0x80
#define TOKEN_HAS_RESTORE_PRIVILEGE 4
#define TOKEN_HAS_TRAVERSE_PRIVILEGE 1
#define TOKEN_IMPERSONATE 4
#define TOKEN_IS_FILTERED 0x800
#define TOKEN_IS_RESTRICTED 0x10
#define TOKEN_MANDATORY_POLICY_NEW_PROCESS_MIN 2
#define TOKEN_MANDATORY_POLICY_NO_WRITE_UP 1
#define TOKEN_MANDATORY_POLICY_OFF 0
#define TOKEN_MANDATORY_POLICY_VALID_MASK 3
#define TOKEN_NOT_LOW 0x2000
#define TOKEN_QUERY 8
#define TOKEN_QUERY_SOURCE 0x10
#define TOKEN_READ 0x20008
#define TOKEN_SANDBOX_INERT 0x40
#define TOKEN_SESSION_NOT_REFERENCED 0x20
#define TOKEN_UIACCESS 0x1000
#define TOKEN_VIRTUALIZE_ALLOWED 0x200
#define TOKEN_VIRTUALIZE_ENABLED 0x400
#define TOKEN_WRITE 0x200e0
#define TOKEN_WRITE_RESTRICTED 8
#define UNPROTECTED_DACL_SECURITY_INFORMATION 0x20000000
#define UNPROTECTED_SACL_SECURITY_INFORMATION 0x10000000
#define VALID_INHERIT_FLAGS 0x1f

typedef struct _SE_IMPERSONATION_STATE {
    PACCESS_TOKEN Token;
    BOOLEAN CopyOnOpen;
    BOOLEAN EffectiveOnly;
    SECURITY_IMPERSONATION_LEVEL Level;
} SE_IMPERSONATION_STATE, *PSE_IMPERSONATION_STATE;
typedef enum _SECURITY_OPERATION_CODE {
    SetSecurityDescriptor,
    QuerySecurityDescriptor,
    DeleteSecurityDescriptor,
    AssignSecurityDescriptor
} SECURITY_OPERATION_CODE,
    *PSECURITY_OPERATION_CODE;
typedef enum _SE_ADT_PARAMETER_TYPE {
    SeAdtParmTypeNone = 0,
    SeAdtParmTypeString,
    SeAdtParmTypeFileSpec,
    SeAdtParmTypeUlong,
    SeAdtParmTypeSid,
    SeAdtParmTypeLogonId,
    SeAdtParmTypeNoLogonId,
    SeAdtParmTypeAccessMask,
    SeAdtParmTypePrivs,
    SeAdtParmTypeObjectTypes,
    SeAdtParmTypeHexUlong,
    SeAdtParmTypePtr,
    SeAdtParmTypeTime,
    SeAdtParmTypeGuid,
    SeAdtParmTypeLuid,
    SeAdtParmTypeHexInt64,
    SeAdtParmTypeStringList,
    SeAdtParmTypeSidList,
    SeAdtParmTypeDuration,
    SeAdtParmTypeUserAccountControl,
    SeAdtParmTypeNoUac,
    SeAdtParmTypeMessage,
    SeAdtParmTypeDateTime,
    SeAdtParmTypeSockAddr,
    SeAdtParmTypeSD,
    SeAdtParmTypeLogonHours,
    SeAdtParmTypeLogonIdNoSid,
    SeAdtParmTypeUlongNoConv,
    SeAdtParmTypeSockAddrNoPort,
    SeAdtParmTypeAccessReason,
    SeAdtParmTypeStagingReason,
    SeAdtParmTypeResourceAttribute,
    SeAdtParmTypeClaims,
    SeAdtParmTypeLogonIdAsSid,
    SeAdtParmTypeMultiSzString,
    SeAdtParmTypeLogonIdEx
} SE_ADT_PARAMETER_TYPE,
    *PSE_ADT_PARAMETER_TYPE;
typedef struct _SE_ADT_OBJECT_TYPE {
    GUID ObjectType;
    USHORT Flags;
    USHORT Level;
    ACCESS_MASK AccessMask;
} SE_ADT_OBJECT_TYPE, *PSE_ADT_OBJECT_TYPE;
typedef struct _SE_ADT_PARAMETER_ARRAY_ENTRY {
    SE_ADT_PARAMETER_TYPE Type;
    ULONG Length;
    ULONG_PTR Data[2];
    PVOID Address;
} SE_ADT_PARAMETER_ARRAY_ENTRY, *PSE_ADT_PARAMETER_ARRAY_ENTRY;
typedef struct _SE_ADT_ACCESS_REASON {
    ACCESS_MASK AccessMask;
    ULONG AccessReasons[32];
    ULONG ObjectTypeIndex;
    ULONG AccessGranted;
    PSECURITY_DESCRIPTOR SecurityDescriptor;
} SE_ADT_ACCESS_REASON, *PSE_ADT_ACCESS_REASON;
typedef struct _SE_ADT_PARAMETER_ARRAY {
    ULONG CategoryId;
    ULONG AuditId;
    ULONG ParameterCount;
    ULONG Length;
    USHORT FlatSubCategoryId;
    USHORT Type;
    ULONG Flags;
    SE_ADT_PARAMETER_ARRAY_ENTRY Parameters[32];
} SE_ADT_PARAMETER_ARRAY, *PSE_ADT_PARAMETER_ARRAY;
typedef enum _WELL_KNOWN_SID_TYPE {
    WinNullSid = 0,
    WinWorldSid = 1,
    WinLocalSid = 2,
    WinCreatorOwnerSid = 3,
    WinCreatorGroupSid = 4,
    WinCreatorOwnerServerSid = 5,
    WinCreatorGroupServerSid = 6,
    WinNtAuthoritySid = 7,
    WinDialupSid = 8,
    WinNetworkSid = 9,
    WinBatchSid = 10,
    WinInteractiveSid = 11,
    WinServiceSid = 12,
    WinAnonymousSid = 13,
    WinProxySid = 14,
    WinEnterpriseControllersSid = 15,
    WinSelfSid = 16,
    WinAuthenticatedUserSid = 17,
    WinRestrictedCodeSid = 18,
    WinTerminalServerSid = 19,
    WinRemoteLogonIdSid = 20,
    WinLogonIdsSid = 21,
    WinLocalSystemSid = 22,
    WinLocalServiceSid = 23,
    WinNetworkServiceSid = 24,
    WinBuiltinDomainSid = 25,
    WinBuiltinAdministratorsSid = 26,
    WinBuiltinUsersSid = 27,
    WinBuiltinGuestsSid = 28,
    WinBuiltinPowerUsersSid = 29,
    WinBuiltinAccountOperatorsSid = 30,
    WinBuiltinSystemOperatorsSid = 31,
    WinBuiltinPrintOperatorsSid = 32,
    WinBuiltinBackupOperatorsSid = 33,
    WinBuiltinReplicatorSid = 34,
    WinBuiltinPreWindows2000CompatibleAccessSid = 35,
    WinBuiltinRemoteDesktopUsersSid = 36,
    WinBuiltinNetworkConfigurationOperatorsSid = 37,
    WinAccountAdministratorSid = 38,
    WinAccountGuestSid = 39,
    WinAccountKrbtgtSid = 40,
    WinAccountDomainAdminsSid = 41,
    WinAccountDomainUsersSid = 42,
    WinAccountDomainGuestsSid = 43,
    WinAccountComputersSid = 44,
    WinAccountControllersSid = 45,
    WinAccountCertAdminsSid = 46,
    WinAccountSchemaAdminsSid = 47,
    WinAccountEnterpriseAdminsSid = 48,
    WinAccountPolicyAdminsSid = 49,
    WinAccountRasAndIasServersSid = 50,
    WinNTLMAuthenticationSid = 51,
    WinDigestAuthenticationSid = 52,
    WinSChannelAuthenticationSid = 53,
    WinThisOrganizationSid = 54,
    WinOtherOrganizationSid = 55,
    WinBuiltinIncomingForestTrustBuildersSid = 56,
    WinBuiltinPerfMonitoringUsersSid = 57,
    WinBuiltinPerfLoggingUsersSid = 58,
    WinBuiltinAuthorizationAccessSid = 59,
    WinBuiltinTerminalServerLicenseServersSid = 60,
    WinBuiltinDCOMUsersSid = 61,
    WinBuiltinIUsersSid = 62,
    WinIUserSid = 63,
    WinBuiltinCryptoOperatorsSid = 64,
    WinUntrustedLabelSid = 65,
    WinLowLabelSid = 66,
    WinMediumLabelSid = 67,
    WinHighLabelSid = 68,
    WinSystemLabelSid = 69,
    WinWriteRestrictedCodeSid = 70,
    WinCreatorOwnerRightsSid = 71,
    WinCacheablePrincipalsGroupSid = 72,
    WinNonCacheablePrincipalsGroupSid = 73,
    WinEnterpriseReadonlyControllersSid = 74,
    WinAccountReadonlyControllersSid = 75,
    WinBuiltinEventLogReadersGroup = 76,
    WinNewEnterpriseReadonlyControllersSid = 77,
    WinBuiltinCertSvcDComAccessGroup = 78,
    WinMediumPlusLabelSid = 79,
    WinLocalLogonSid = 80,
    WinConsoleLogonSid = 81,
    WinThisOrganizationCertificateSid = 82,
} WELL_KNOWN_SID_TYPE;
typedef enum _SID_NAME_USE {
    SidTypeUser = 1,
    SidTypeGroup,
    SidTypeDomain,
    SidTypeAlias,
    SidTypeWellKnownGroup,
    SidTypeDeletedAccount,
    SidTypeInvalid,
    SidTypeUnknown,
    SidTypeComputer,
    SidTypeLabel,
    SidTypeLogonSession
} SID_NAME_USE,
    *PSID_NAME_USE;
typedef struct _ACE_HEADER {
    UCHAR AceType;
    UCHAR AceFlags;
    USHORT AceSize;
} ACE_HEADER, *PACE_HEADER;
typedef struct _ACCESS_ALLOWED_ACE {
    ACE_HEADER Header;
    ACCESS_MASK Mask;
    ULONG SidStart;
} ACCESS_ALLOWED_ACE, *PACCESS_ALLOWED_ACE;
typedef struct _ACCESS_DENIED_ACE {
    ACE_HEADER Header;
    ACCESS_MASK Mask;
    ULONG SidStart;
} ACCESS_DENIED_ACE, *PACCESS_DENIED_ACE;
typedef struct _SYSTEM_AUDIT_ACE {
    ACE_HEADER Header;
    ACCESS_MASK Mask;
    ULONG SidStart;
} SYSTEM_AUDIT_ACE, *PSYSTEM_AUDIT_ACE;
typedef struct _SYSTEM_ALARM_ACE {
    ACE_HEADER Header;
    ACCESS_MASK Mask;
    ULONG SidStart;
} SYSTEM_ALARM_ACE, *PSYSTEM_ALARM_ACE;
typedef struct _SYSTEM_MANDATORY_LABEL_ACE {
    ACE_HEADER Header;
    ACCESS_MASK Mask;
    ULONG SidStart;
} SYSTEM_MANDATORY_LABEL_ACE, *PSYSTEM_MANDATORY_LABEL_ACE;
typedef struct _SECURITY_DESCRIPTOR_RELATIVE {
    UCHAR Revision;
    UCHAR Sbz1;
    SECURITY_DESCRIPTOR_CONTROL Control;
    ULONG Owner;
    ULONG Group;
    ULONG Sacl;
    ULONG Dacl;
} SECURITY_DESCRIPTOR_RELATIVE, *PISECURITY_DESCRIPTOR_RELATIVE;
typedef struct _OBJECT_TYPE_LIST {
    USHORT Level;
    USHORT Sbz;
    GUID *ObjectType;
} OBJECT_TYPE_LIST, *POBJECT_TYPE_LIST;
typedef enum _AUDIT_EVENT_TYPE { AuditEventObjectAccess, AuditEventDirectoryServiceAccess } AUDIT_EVENT_TYPE, *PAUDIT_EVENT_TYPE;
typedef enum _ACCESS_REASON_TYPE {
    AccessReasonNone = 0x00000000,
    AccessReasonAllowedAce = 0x00010000,
    AccessReasonDeniedAce = 0x00020000,
    AccessReasonAllowedParentAce = 0x00030000,
    AccessReasonDeniedParentAce = 0x00040000,
    AccessReasonMissingPrivilege = 0x00100000,
    AccessReasonFromPrivilege = 0x00200000,
    AccessReasonIntegrityLevel = 0x00300000,
    AccessReasonOwnership = 0x00400000,
    AccessReasonNullDacl = 0x00500000,
    AccessReasonEmptyDacl = 0x00600000,
    AccessReasonNoSD = 0x00700000,
    AccessReasonNoGrant = 0x00800000
} ACCESS_REASON_TYPE;
typedef struct _SE_SECURITY_DESCRIPTOR {
    ULONG Size;
    ULONG Flags;
    PSECURITY_DESCRIPTOR SecurityDescriptor;
} SE_SECURITY_DESCRIPTOR, *PSE_SECURITY_DESCRIPTOR;
typedef struct _SE_ACCESS_REQUEST {
    ULONG Size;
    PSE_SECURITY_DESCRIPTOR SeSecurityDescriptor;
    ACCESS_MASK DesiredAccess;
    ACCESS_MASK PreviouslyGrantedAccess;
    PSID PrincipalSelfSid;
    PGENERIC_MAPPING GenericMapping;
    ULONG ObjectTypeListCount;
    POBJECT_TYPE_LIST ObjectTypeList;
} SE_ACCESS_REQUEST, *PSE_ACCESS_REQUEST;
typedef enum _SE_AUDIT_OPERATION {
    AuditPrivilegeObject,
    AuditPrivilegeService,
    AuditAccessCheck,
    AuditOpenObject,
    AuditOpenObjectWithTransaction,
    AuditCloseObject,
    AuditDeleteObject,
    AuditOpenObjectForDelete,
    AuditOpenObjectForDeleteWithTransaction,
    AuditCloseNonObject,
    AuditOpenNonObject,
    AuditObjectReference,
    AuditHandleCreation,
} SE_AUDIT_OPERATION,
    *PSE_AUDIT_OPERATION;
typedef struct _SE_AUDIT_INFO {
    ULONG Size;
    AUDIT_EVENT_TYPE AuditType;
    SE_AUDIT_OPERATION AuditOperation;
    ULONG AuditFlags;
    UNICODE_STRING SubsystemName;
    UNICODE_STRING ObjectTypeName;
    UNICODE_STRING ObjectName;
    PVOID HandleId;
    GUID *TransactionId;
    LUID *OperationId;
    BOOLEAN ObjectCreation;
    BOOLEAN GenerateOnClose;
} SE_AUDIT_INFO, *PSE_AUDIT_INFO;
typedef struct _TOKEN_OWNER {
    PSID Owner;
} TOKEN_OWNER, *PTOKEN_OWNER;
typedef struct _TOKEN_PRIMARY_GROUP {
    PSID PrimaryGroup;
} TOKEN_PRIMARY_GROUP, *PTOKEN_PRIMARY_GROUP;
typedef struct _TOKEN_DEFAULT_DACL {
    PACL DefaultDacl;
} TOKEN_DEFAULT_DACL, *PTOKEN_DEFAULT_DACL;
typedef struct _TOKEN_GROUPS_AND_PRIVILEGES {
    ULONG SidCount;
    ULONG SidLength;
    PSID_AND_ATTRIBUTES Sids;
    ULONG RestrictedSidCount;
    ULONG RestrictedSidLength;
    PSID_AND_ATTRIBUTES RestrictedSids;
    ULONG PrivilegeCount;
    ULONG PrivilegeLength;
    PLUID_AND_ATTRIBUTES Privileges;
    LUID AuthenticationId;
} TOKEN_GROUPS_AND_PRIVILEGES, *PTOKEN_GROUPS_AND_PRIVILEGES;
typedef struct _TOKEN_LINKED_TOKEN {
    HANDLE LinkedToken;
} TOKEN_LINKED_TOKEN, *PTOKEN_LINKED_TOKEN;
typedef struct _TOKEN_ELEVATION {
    ULONG TokenIsElevated;
} TOKEN_ELEVATION, *PTOKEN_ELEVATION;
typedef struct _TOKEN_MANDATORY_LABEL {
    SID_AND_ATTRIBUTES Label;
} TOKEN_MANDATORY_LABEL, *PTOKEN_MANDATORY_LABEL;
typedef struct _TOKEN_MANDATORY_POLICY {
    ULONG Policy;
} TOKEN_MANDATORY_POLICY, *PTOKEN_MANDATORY_POLICY;
typedef struct _TOKEN_AUDIT_POLICY {
    UCHAR PerUserPolicy[(((53)) >> 1) + 1];
} TOKEN_AUDIT_POLICY, *PTOKEN_AUDIT_POLICY;
typedef struct _TOKEN_STATISTICS {
    LUID TokenId;
    LUID AuthenticationId;
    LARGE_INTEGER ExpirationTime;
    TOKEN_TYPE TokenType;
    SECURITY_IMPERSONATION_LEVEL ImpersonationLevel;
    ULONG DynamicCharged;
    ULONG DynamicAvailable;
    ULONG GroupCount;
    ULONG PrivilegeCount;
    LUID ModifiedId;
} TOKEN_STATISTICS, *PTOKEN_STATISTICS;
typedef struct _TOKEN_ORIGIN {
    LUID OriginatingLogonSession;
} TOKEN_ORIGIN, *PTOKEN_ORIGIN;
typedef enum _MANDATORY_LEVEL {
    MandatoryLevelUntrusted = 0,
    MandatoryLevelLow,
    MandatoryLevelMedium,
    MandatoryLevelHigh,
    MandatoryLevelSystem,
    MandatoryLevelSecureProcess,
    MandatoryLevelCount
} MANDATORY_LEVEL,
    *PMANDATORY_LEVEL;
typedef NTSTATUS (*PSE_LOGON_SESSION_TERMINATED_ROUTINE)(PLUID LogonId);
typedef enum _SECURITY_LOGON_TYPE {
    UndefinedLogonType = 0,
    Interactive = 2,
    Network,
    Batch,
    Service,
    Proxy,
    Unlock,
    NetworkCleartext,
    NewCredentials,
    RemoteInteractive,
    CachedInteractive,
    CachedRemoteInteractive,
    CachedUnlock
} SECURITY_LOGON_TYPE,
    *PSECURITY_LOGON_TYPE;

KZ_END

#endif
