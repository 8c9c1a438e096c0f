#ifndef KIT_MATH_H
#define KIT_MATH_H
#define signbit(number) __builtin_signbit(number)
#endif
