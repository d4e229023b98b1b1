/* What the scanner and its service send each other. */
#ifndef CONTENTSCAN_H
#define CONTENTSCAN_H

#define CONTENTSCAN_PORT L"\\ContentScanPort"
#define CONTENTSCAN_MOST 1024

typedef struct _CONTENTSCAN_REQUEST {
    ULONG Length;
    UCHAR Content[CONTENTSCAN_MOST];
} CONTENTSCAN_REQUEST, *PCONTENTSCAN_REQUEST;

typedef struct _CONTENTSCAN_VERDICT {
    ULONG IsClean;
} CONTENTSCAN_VERDICT, *PCONTENTSCAN_VERDICT;

#endif
