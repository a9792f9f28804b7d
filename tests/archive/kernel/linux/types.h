/* The kernel's own names for what gormulast.h asks of <linux/types.h>, and no more. */
typedef unsigned char uint8_t;
typedef unsigned int uint32_t;
typedef long long int64_t;
typedef unsigned long long uint64_t;
typedef unsigned long size_t;
