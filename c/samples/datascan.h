/* Between the filter that has files scanned through sections and its program. */
#ifndef DATASCAN_H
#define DATASCAN_H

#define DATASCAN_PORT L"\\DataScanPort"

/* To the program: a file waits. It answers by commands. */
typedef struct _DATASCAN_NOTICE {
    ULONGLONG Id;
} DATASCAN_NOTICE, *PDATASCAN_NOTICE;

typedef enum _DATASCAN_KIND {
    DataScanOpen, /* a section of the file, as a handle of the program's */
    DataScanClose /* with the verdict */
} DATASCAN_KIND;

typedef struct _DATASCAN_COMMAND {
    DATASCAN_KIND Kind;
    BOOLEAN IsFoul;
    ULONGLONG Id;
} DATASCAN_COMMAND, *PDATASCAN_COMMAND;

typedef struct _DATASCAN_SECTION {
    HANDLE Section;
    LONGLONG Size;
} DATASCAN_SECTION, *PDATASCAN_SECTION;

#endif
