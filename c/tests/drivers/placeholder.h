/* What the filter of placeholders and its provider say to each other. */
#ifndef PLACEHOLDER_H
#define PLACEHOLDER_H

#define PLACEHOLDER_PORT L"\\PlaceholderPort"
#define PLACEHOLDER_LETTERS 48
#define PLACEHOLDER_MOST 256

/* The provider has a placeholder made: a name from the volume's root, and how large the file is. */
typedef struct _PLACEHOLDER_MAKE {
    ULONG Size;
    WCHAR Name[PLACEHOLDER_LETTERS];
} PLACEHOLDER_MAKE, *PPLACEHOLDER_MAKE;

/* The filter wants what a file holds, and the provider answers it. */
typedef struct _PLACEHOLDER_WANTED {
    ULONG Size;
    WCHAR Name[PLACEHOLDER_LETTERS];
} PLACEHOLDER_WANTED, *PPLACEHOLDER_WANTED;

typedef struct _PLACEHOLDER_CONTENT {
    ULONG Length; /* 0 if it hasn't the file any more */
    UCHAR Bytes[PLACEHOLDER_MOST];
} PLACEHOLDER_CONTENT, *PPLACEHOLDER_CONTENT;

#endif
