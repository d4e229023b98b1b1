/* The numbers of warnings of the kit's own tools, by which a source turns them off. No compiler here has them. */
#ifndef KZ_SUPPRESS_H
#define KZ_SUPPRESS_H
#endif
