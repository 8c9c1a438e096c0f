#ifndef KIT_STDINT_H
#define KIT_STDINT_H
typedef __UINT8_TYPE__ uint8_t;
typedef __UINT16_TYPE__ uint16_t;
typedef __UINT32_TYPE__ uint32_t;
typedef __UINT64_TYPE__ uint64_t;
typedef __INT32_TYPE__ int32_t;
typedef __INT64_TYPE__ int64_t;
#define UINT32_C(number) number##U
#define UINT64_C(number) number##UL
#define UINT32_MAX 0xFFFFFFFFU
#define SIZE_MAX __SIZE_MAX__
#endif
