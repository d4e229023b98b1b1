/* The filter manager as a filter's program sees it: the kit's fltUser.h. */
#ifndef KZ_FLTUSER_H
#define KZ_FLTUSER_H

#include "windows.h"
#include "fltUserStructures.h"

KZ_BEGIN

#define FLT_PORT_FLAG_SYNC_HANDLE 0x00000001
#define ERROR_FLT_NO_HANDLER_DEFINED ((HRESULT)0x801f0001)
#define ERROR_FLT_DELETING_OBJECT ((HRESULT)0x801f000b)
#define ERROR_FLT_DO_NOT_ATTACH ((HRESULT)0x801f000f)
#define ERROR_FLT_DO_NOT_DETACH ((HRESULT)0x801f0010)
#define ERROR_FLT_INSTANCE_ALTITUDE_COLLISION ((HRESULT)0x801f0011)
#define ERROR_FLT_INSTANCE_NAME_COLLISION ((HRESULT)0x801f0012)
#define ERROR_FLT_FILTER_NOT_FOUND ((HRESULT)0x801f0013)
#define ERROR_FLT_VOLUME_NOT_FOUND ((HRESULT)0x801f0014)
#define ERROR_FLT_INSTANCE_NOT_FOUND ((HRESULT)0x801f0015)
#define ERROR_FLT_NO_WAITER_FOR_REPLY ((HRESULT)0x801f0020)

/* ---- Messages. */
HRESULT FilterConnectCommunicationPort(LPCWSTR PortName, DWORD Options, LPCVOID Context, WORD SizeOfContext, LPSECURITY_ATTRIBUTES Attributes, HANDLE *Port);
HRESULT FilterSendMessage(HANDLE Port, LPVOID In, DWORD InSize, LPVOID Out, DWORD OutSize, LPDWORD Returned);
HRESULT FilterGetMessage(HANDLE Port, PFILTER_MESSAGE_HEADER Message, DWORD Size, LPOVERLAPPED Overlapped);
HRESULT FilterReplyMessage(HANDLE Port, PFILTER_REPLY_HEADER Reply, DWORD Size);

/* ---- Filters and instances. */
typedef HANDLE HFILTER, HFILTER_INSTANCE;
HRESULT FilterLoad(LPCWSTR FilterName);
HRESULT FilterUnload(LPCWSTR FilterName);
HRESULT FilterAttach(LPCWSTR FilterName, LPCWSTR VolumeName, LPCWSTR InstanceName, DWORD CreatedSize, LPWSTR CreatedName);
HRESULT FilterAttachAtAltitude(LPCWSTR FilterName, LPCWSTR VolumeName, LPCWSTR Altitude, LPCWSTR InstanceName, DWORD CreatedSize, LPWSTR CreatedName);
HRESULT FilterDetach(LPCWSTR FilterName, LPCWSTR VolumeName, LPCWSTR InstanceName);

/* ---- What is there: each list is taken as it is at its first call. */
HRESULT FilterFindFirst(FILTER_INFORMATION_CLASS Class, LPVOID Room, DWORD Size, LPDWORD Returned, LPHANDLE Find);
HRESULT FilterFindNext(HANDLE Find, FILTER_INFORMATION_CLASS Class, LPVOID Room, DWORD Size, LPDWORD Returned);
HRESULT FilterFindClose(HANDLE Find);
HRESULT FilterVolumeFindFirst(FILTER_VOLUME_INFORMATION_CLASS Class, LPVOID Room, DWORD Size, LPDWORD Returned, PHANDLE Find);
HRESULT FilterVolumeFindNext(HANDLE Find, FILTER_VOLUME_INFORMATION_CLASS Class, LPVOID Room, DWORD Size, LPDWORD Returned);
HRESULT FilterVolumeFindClose(HANDLE Find);
HRESULT FilterInstanceFindFirst(LPCWSTR FilterName, INSTANCE_INFORMATION_CLASS Class, LPVOID Room, DWORD Size, LPDWORD Returned, LPHANDLE Find);
HRESULT FilterInstanceFindNext(HANDLE Find, INSTANCE_INFORMATION_CLASS Class, LPVOID Room, DWORD Size, LPDWORD Returned);
HRESULT FilterInstanceFindClose(HANDLE Find);
HRESULT FilterVolumeInstanceFindFirst(LPCWSTR VolumeName, INSTANCE_INFORMATION_CLASS Class, LPVOID Room, DWORD Size, LPDWORD Returned, LPHANDLE Find);
HRESULT FilterVolumeInstanceFindNext(HANDLE Find, INSTANCE_INFORMATION_CLASS Class, LPVOID Room, DWORD Size, LPDWORD Returned);
HRESULT FilterVolumeInstanceFindClose(HANDLE Find);
HRESULT FilterGetDosName(LPCWSTR VolumeName, LPWSTR DosName, DWORD Size);

KZ_END

#endif
